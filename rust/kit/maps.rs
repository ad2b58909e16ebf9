//! Maps and sets that answer where memory is short.
use super::memory::{AllocError, Global};
use std::collections::hash_map::RandomState;
use std::hash::{BuildHasher, Hash, Hasher};
use std::ops::{Deref, DerefMut};

/// A hash by multiplying and folding.
#[derive(Default)]
pub struct FoldHasher(u64);

impl FoldHasher {
    #[inline]
    fn fold(&mut self, number: u64) {
        let product = u128::from(self.0 ^ number ^ 0x243F_6A88_85A3_08D3) * 0x9E37_79B9_7F4A_7C15;
        self.0 = (product as u64) ^ ((product >> 64) as u64);
    }
}

impl Hasher for FoldHasher {
    fn finish(&self) -> u64 {
        self.0
    }

    fn write(&mut self, bytes: &[u8]) {
        for part in bytes.chunks(8) {
            let mut number = [0; 8];
            number[..part.len()].copy_from_slice(part);
            self.fold(u64::from_le_bytes(number));
        }
    }

    fn write_u8(&mut self, number: u8) {
        self.fold(u64::from(number))
    }

    fn write_u32(&mut self, number: u32) {
        self.fold(u64::from(number))
    }

    fn write_u64(&mut self, number: u64) {
        self.fold(number)
    }

    fn write_usize(&mut self, number: usize) {
        self.fold(number as u64)
    }

    fn write_isize(&mut self, number: isize) {
        self.fold(number as u64)
    }
}

/// A map with Rust's own hasher where none is named. Nothing goes over its entries in their order.
pub struct HashMap<K, V, S = RandomState>(std::collections::HashMap<K, V, S>);

impl<K: Eq + Hash, V> HashMap<K, V> {
    pub fn new(_: Global) -> Self {
        HashMap(std::collections::HashMap::new())
    }
}

impl<K: Eq + Hash, V, S: BuildHasher> HashMap<K, V, S> {
    pub fn with_hasher(_: Global, hasher: S) -> Self {
        HashMap(std::collections::HashMap::with_hasher(hasher))
    }

    /// A key that is there already takes no memory.
    pub fn insert(&mut self, key: K, value: V) -> Result<Option<V>, AllocError> {
        if self.0.len() == self.0.capacity() {
            if let Some(place) = self.0.get_mut(&key) {
                return Ok(Some(std::mem::replace(place, value)));
            }
            self.0.try_reserve(1)?;
        }
        Ok(self.0.insert(key, value))
    }
}

impl<K, V, S> Deref for HashMap<K, V, S> {
    type Target = std::collections::HashMap<K, V, S>;
    fn deref(&self) -> &Self::Target {
        &self.0
    }
}

impl<K, V, S> DerefMut for HashMap<K, V, S> {
    fn deref_mut(&mut self) -> &mut Self::Target {
        &mut self.0
    }
}

pub struct HashSet<K>(std::collections::HashSet<K>);

impl<K: Eq + Hash> HashSet<K> {
    pub fn new(_: Global) -> Self {
        HashSet(std::collections::HashSet::new())
    }

    pub fn insert(&mut self, key: K) -> Result<bool, AllocError> {
        if self.0.len() == self.0.capacity() {
            if self.0.contains(&key) {
                return Ok(false);
            }
            self.0.try_reserve(1)?;
        }
        Ok(self.0.insert(key))
    }
}

impl<K> Deref for HashSet<K> {
    type Target = std::collections::HashSet<K>;
    fn deref(&self) -> &Self::Target {
        &self.0
    }
}

impl<K> DerefMut for HashSet<K> {
    fn deref_mut(&mut self) -> &mut Self::Target {
        &mut self.0
    }
}

/// A set in order, with the least at the end of a vector: Rust's tree takes memory without asking.
pub struct BTreeSet<T>(Vec<T>);

impl<T: Ord> BTreeSet<T> {
    pub const fn new(_: Global) -> Self {
        BTreeSet(Vec::new())
    }

    /// Where the item is, or where it is to stand.
    fn place(&self, item: &T) -> Result<usize, usize> {
        self.0.binary_search_by(|one| item.cmp(one))
    }

    pub fn insert(&mut self, item: T) -> Result<bool, AllocError> {
        let Err(at) = self.place(&item) else { return Ok(false) };
        self.0.try_reserve(1)?;
        self.0.insert(at, item);
        Ok(true)
    }

    pub fn remove(&mut self, item: &T) -> bool {
        let found = self.place(item);
        if let Ok(at) = found {
            self.0.remove(at);
        }
        found.is_ok()
    }

    pub fn first(&self) -> Option<&T> {
        self.0.last()
    }

    pub fn pop_first(&mut self) -> Option<T> {
        self.0.pop()
    }
}
