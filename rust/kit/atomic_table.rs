//! A table of words that change in single steps, and of slots, each of which one seat has at a time. The proofs say which, so the lock
//! round each slot is always free here: it is what Rust asks for in place of the proof.
#![allow(clippy::extra_unused_type_parameters, clippy::type_complexity, reason = "the sources name each step by a type")]
use super::memory::{Global, Vec};
use super::threads::Wait;
use std::marker::PhantomData;
use std::sync::atomic::{AtomicU64, Ordering};
use std::sync::{Condvar, Mutex, PoisonError};

pub trait TableRule<S, V, K> {}

pub trait Play<S, V> {}

pub trait Split<V> {}

pub trait Join<V> {}

/// A word, and where those sleep who wait for it, on a line of the processor's cache of its own.
#[repr(align(64))]
struct Word {
    value: AtomicU64,
    lock: Mutex<()>,
    bell: Condvar,
}

/// A slot, likewise.
#[repr(align(64))]
struct Slot<S>(Mutex<S>);

pub struct Shared<S, V, K, P> {
    words: std::vec::Vec<Word>,
    slots: std::vec::Vec<Slot<S>>,
    marker: PhantomData<fn() -> (V, K, P)>,
}

/// Who steps. It has no bytes.
pub struct Seat<S, V>(PhantomData<fn() -> (S, V)>);

pub struct Table<S, V, K, P, A> {
    pub shared: Shared<S, V, K, P>,
    marker: PhantomData<fn() -> A>,
}

/// No memory was left for a table.
pub struct Refused<S> {
    #[allow(dead_code, reason = "it is handed back, and those who call let it go")]
    pub slots: Vec<S>,
}

pub struct Closed<S, A> {
    slots: std::vec::IntoIter<Slot<S>>,
    count: usize,
    marker: PhantomData<fn() -> A>,
}

impl<S, V, K, P, A> Table<S, V, K, P, A> {
    pub fn new(_: Global, given: &[u64], slots: Vec<S>, _: &K) -> Result<(Self, Seat<S, V>), Refused<S>> {
        let (mut words, mut cells) = (std::vec::Vec::new(), std::vec::Vec::new());
        if words.try_reserve_exact(given.len()).and(cells.try_reserve_exact(slots.len())).is_err() {
            return Err(Refused { slots });
        }
        words.extend(given.iter().map(|word| Word { value: AtomicU64::new(*word), lock: Mutex::new(()), bell: Condvar::new() }));
        cells.extend(slots.into_iter().map(|slot| Slot(Mutex::new(slot))));
        let shared = Shared { words, slots: cells, marker: PhantomData };
        Ok((Table { shared, marker: PhantomData }, Seat(PhantomData)))
    }

    pub fn slot_count(&self) -> usize {
        self.shared.slots.len()
    }

    pub fn close_with(self, _: Seat<S, V>) -> Closed<S, A> {
        Closed { count: self.slot_count(), slots: self.shared.slots.into_iter(), marker: PhantomData }
    }
}

impl<S, A> Closed<S, A> {
    pub fn slot_count(&self) -> usize {
        self.count
    }

    /// What a slot has. They are asked for in their order.
    pub fn take(&mut self, at: usize) -> S {
        ::std::assert_eq!(at + self.slots.len(), self.count);
        match self.slots.next() {
            Some(slot) => slot.0.into_inner().unwrap_or_else(PoisonError::into_inner),
            None => unreachable!(),
        }
    }

    pub fn free(self) {}
}

impl<S, V, K, P> Shared<S, V, K, P> {
    #[inline]
    pub fn peek(&self, word: usize) -> u64 {
        self.words[word].value.load(Ordering::SeqCst)
    }

    #[inline]
    pub fn swap<M>(&self, _: &mut Seat<S, V>, word: usize, new: u64) -> u64 {
        self.words[word].value.swap(new, Ordering::SeqCst)
    }

    #[inline]
    pub fn compare_exchange<M>(&self, _: &mut Seat<S, V>, word: usize, current: u64, new: u64) -> u64 {
        match self.words[word].value.compare_exchange(current, new, Ordering::SeqCst, Ordering::SeqCst) {
            Ok(found) | Err(found) => found,
        }
    }

    #[inline]
    pub fn exchange(&self, _: &mut Seat<S, V>, slot: usize, new: S) -> S {
        std::mem::replace(&mut *self.slots[slot].0.lock().unwrap_or_else(PoisonError::into_inner), new)
    }

    pub fn split_seat<M>(&self, _: &mut Seat<S, V>) -> Seat<S, V> {
        Seat(PhantomData)
    }

    pub fn join_seat<M>(&self, _: &mut Seat<S, V>, _: Seat<S, V>) {}

    /// Sleeps while the word is as expected, or wakes for no reason.
    pub fn park<R: Wait>(&self, _: &R, word: usize, expected: u32) {
        let held = self.words[word].lock.lock().unwrap_or_else(PoisonError::into_inner);
        if self.peek(word) as u32 == expected {
            drop(self.words[word].bell.wait(held));
        }
    }

    /// The word has changed: wakes one who sleeps for it. (Who has looked at the word holds the lock until it sleeps.)
    pub fn wake_one(&self, word: usize) {
        drop(self.words[word].lock.lock());
        self.words[word].bell.notify_one();
    }
}
