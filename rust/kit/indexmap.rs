//! Maps and sets that keep the order in which keys came.
use super::maps::FoldHasher;
use super::memory::{AllocError, Global};
use std::borrow::Borrow;
use std::hash::{Hash, Hasher};

/// No place in a table.
const FREE: u32 = u32::MAX;

fn hash_of<Q: Hash + ?Sized>(key: &Q) -> u64 {
    let mut hasher = FoldHasher::default();
    key.hash(&mut hasher);
    hasher.finish()
}

/// A map that keeps the order in which keys came.
pub struct IndexMap<K, V> {
    keys: Vec<K>,
    values: Vec<V>,
    hashes: Vec<u64>,
    /// The places of the keys, by hash; a power of two of them, or none.
    table: Vec<u32>,
}

impl<K: Eq + Hash, V> IndexMap<K, V> {
    pub const fn new(_: Global) -> Self {
        IndexMap { keys: Vec::new(), values: Vec::new(), hashes: Vec::new(), table: Vec::new() }
    }

    pub fn get_index_of<Q: Hash + Eq + ?Sized>(&self, key: &Q) -> Option<usize>
    where
        K: Borrow<Q>,
    {
        if self.table.is_empty() {
            return None;
        }
        let (hash, mask) = (hash_of(key), self.table.len() - 1);
        let mut at = hash as usize & mask;
        loop {
            let place = self.table[at];
            if place == FREE {
                return None;
            }
            let place = place as usize;
            if self.hashes[place] == hash && self.keys[place].borrow() == key {
                return Some(place);
            }
            at = (at + 1) & mask;
        }
    }

    pub fn get<Q: Hash + Eq + ?Sized>(&self, key: &Q) -> Option<&V>
    where
        K: Borrow<Q>,
    {
        Some(&self.values[self.get_index_of(key)?])
    }

    pub fn get_mut<Q: Hash + Eq + ?Sized>(&mut self, key: &Q) -> Option<&mut V>
    where
        K: Borrow<Q>,
    {
        let place = self.get_index_of(key)?;
        Some(&mut self.values[place])
    }

    pub fn contains_key<Q: Hash + Eq + ?Sized>(&self, key: &Q) -> bool
    where
        K: Borrow<Q>,
    {
        self.get_index_of(key).is_some()
    }

    pub fn get_index(&self, place: usize) -> Option<(&K, &V)> {
        Some((self.keys.get(place)?, &self.values[place]))
    }

    pub fn len(&self) -> usize {
        self.keys.len()
    }

    pub fn reserve(&mut self, count: usize) -> Result<(), AllocError> {
        self.keys.try_reserve(count)?;
        self.values.try_reserve(count)?;
        self.hashes.try_reserve(count)?;
        self.make_room(self.keys.len() + count)
    }

    pub fn insert(&mut self, key: K, value: V) -> Result<Option<V>, AllocError> {
        if let Some(place) = self.get_index_of(&key) {
            return Ok(Some(std::mem::replace(&mut self.values[place], value)));
        }
        self.reserve(1)?;
        let hash = hash_of(&key);
        self.enter(hash, self.keys.len());
        self.keys.push(key);
        self.values.push(value);
        self.hashes.push(hash);
        Ok(None)
    }

    fn enter(&mut self, hash: u64, place: usize) {
        let mask = self.table.len() - 1;
        let mut at = hash as usize & mask;
        while self.table[at] != FREE {
            at = (at + 1) & mask;
        }
        self.table[at] = place as u32;
    }

    /// At most three of four places of the table are taken.
    fn make_room(&mut self, count: usize) -> Result<(), AllocError> {
        if count * 4 <= self.table.len() * 3 {
            return Ok(());
        }
        let size = (count * 2).next_power_of_two().max(16);
        let mut table = Vec::new();
        table.try_reserve_exact(size)?;
        table.resize(size, FREE);
        self.table = table;
        for place in 0..self.hashes.len() {
            self.enter(self.hashes[place], place);
        }
        Ok(())
    }
}

pub struct IndexSet<K>(IndexMap<K, ()>);

impl<K: Eq + Hash> IndexSet<K> {
    pub const fn new(alloc: Global) -> Self {
        IndexSet(IndexMap::new(alloc))
    }

    pub fn insert(&mut self, key: K) -> Result<bool, AllocError> {
        Ok(self.0.insert(key, ())?.is_none())
    }

    pub fn reserve(&mut self, count: usize) -> Result<(), AllocError> {
        self.0.reserve(count)
    }

    pub fn first(&self) -> Option<&K> {
        Some(self.0.get_index(0)?.0)
    }

    pub fn get_index_of<Q: Hash + Eq + ?Sized>(&self, key: &Q) -> Option<usize>
    where
        K: Borrow<Q>,
    {
        self.0.get_index_of(key)
    }

    pub fn contains<Q: Hash + Eq + ?Sized>(&self, key: &Q) -> bool
    where
        K: Borrow<Q>,
    {
        self.0.contains_key(key)
    }

    pub fn len(&self) -> usize {
        self.0.len()
    }
}
