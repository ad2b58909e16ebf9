//! A slab: values in rooms that are used again, the one that was freed last first.
use super::memory::{AllocFailed, Global};
use std::ops::{Index, IndexMut};

enum Room<T> {
    Free(usize),
    Taken(T),
}

pub struct Slab<T> {
    rooms: Vec<Room<T>>,
    free: usize,
}

impl<T> Slab<T> {
    pub fn new(_: Global) -> Self {
        Slab { rooms: Vec::new(), free: 0 }
    }

    pub fn insert(&mut self, value: T) -> Result<usize, AllocFailed<T>> {
        let key = self.free;
        if key == self.rooms.len() {
            if self.rooms.try_reserve(1).is_err() {
                return Err(AllocFailed { value });
            }
            self.rooms.push(Room::Taken(value));
            self.free = key + 1;
        } else {
            let Room::Free(next) = std::mem::replace(&mut self.rooms[key], Room::Taken(value)) else { unreachable!() };
            self.free = next;
        }
        Ok(key)
    }

    pub fn remove(&mut self, key: usize) -> T {
        let Room::Taken(value) = std::mem::replace(&mut self.rooms[key], Room::Free(self.free)) else { unreachable!() };
        self.free = key;
        value
    }
}

impl<T> Index<usize> for Slab<T> {
    type Output = T;
    fn index(&self, key: usize) -> &T {
        let Room::Taken(value) = &self.rooms[key] else { unreachable!() };
        value
    }
}

impl<T> IndexMut<usize> for Slab<T> {
    fn index_mut(&mut self, key: usize) -> &mut T {
        let Room::Taken(value) = &mut self.rooms[key] else { unreachable!() };
        value
    }
}
