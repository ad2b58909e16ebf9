//! Threads that come to an end together, and waiting.
use super::memory::{AllocError, Global, Vec};
use std::sync::{Mutex, PoisonError};
use std::time::Duration;

/// Who may wait.
pub trait Wait {
    fn forever(&self) -> std::iter::Repeat<()> {
        std::iter::repeat(())
    }
}

/// Who may start threads.
pub trait Threads {}

pub struct Parker;

impl Parker {
    pub fn new() -> Self {
        Parker
    }

    pub fn park_timeout<R: Wait>(&self, _: &R, time: Duration) {
        std::thread::sleep(time)
    }
}

/// What a thread is given, and what it made of it.
struct Part<T, U> {
    given: Mutex<Option<T>>,
    made: Mutex<Option<U>>,
}

fn taken<T>(from: &Mutex<Option<T>>) -> Option<T> {
    from.lock().unwrap_or_else(PoisonError::into_inner).take()
}

impl<T, U> Part<T, U> {
    fn play<F: Fn(T) -> U>(&self, call: &F) {
        if let Some(item) = taken(&self.given) {
            let made = call(item);
            *self.made.lock().unwrap_or_else(PoisonError::into_inner) = Some(made);
        }
    }
}

/// Calls at each item, each in a thread of its own where one can be made, and the first in this one. Results in order.
pub fn map_vec<R: Threads, T: Send, U: Send, F: Fn(T) -> U + Sync>(_: &R, items: Vec<T>, call: &F) -> Result<Vec<U>, AllocError> {
    let mut parts = Vec::with_capacity(Global, items.len())?;
    let mut all = Vec::with_capacity(Global, items.len())?;
    items.into_iter().for_each(|item| parts.push_reserved(Part { given: Mutex::new(Some(item)), made: Mutex::new(None) }));
    std::thread::scope(|scope| {
        for part in parts.iter().skip(1) {
            let _ = std::thread::Builder::new().spawn_scoped(scope, || part.play(call));
        }
        parts.iter().take(1).for_each(|part| part.play(call));
    });
    for part in &parts {
        part.play(call);
        match taken(&part.made) {
            Some(made) => all.push_reserved(made),
            None => unreachable!(),
        }
    }
    Ok(all)
}
