//! Buffers to lend, between guards: what a call may not touch is seen to be as it was.

use crate::{same, Outcome};
use std::fmt::Debug;

/// The elements on each side of what is lent.
const GUARD: usize = 16;

/// A buffer of noise; its guards are lent to nobody.
#[derive(Clone)]
pub struct Guarded<T>(Vec<T>);

impl<T: Copy + PartialEq + Debug> Guarded<T> {
    pub fn new(length: usize, noise: impl FnMut() -> T) -> Guarded<T> {
        Guarded(std::iter::repeat_with(noise).take(length + 2 * GUARD).collect())
    }

    /// A buffer that holds these, to be read.
    pub fn holding(values: Vec<T>, noise: impl FnMut() -> T) -> Guarded<T> {
        Guarded::new(values.len(), noise).filled(values)
    }

    /// What is lent to be read.
    pub fn held(&self) -> &[T] {
        &self.0[GUARD..self.0.len() - GUARD]
    }

    /// What is lent to be written.
    pub fn room(&mut self) -> &mut [T] {
        let end = self.0.len() - GUARD;
        &mut self.0[GUARD..end]
    }

    /// The same buffer with its first elements filled, or with nothing changed where there are none.
    pub fn filled(mut self, with: impl IntoIterator<Item = T>) -> Guarded<T> {
        self.room().iter_mut().zip(with).for_each(|(held, new)| *held = new);
        self
    }

    /// Fails at the first element that differs, guards included; places count from the start of what is lent.
    pub fn compare(&self, what: &str, wanted: &Guarded<T>) -> Outcome {
        match self.0.iter().zip(&wanted.0).position(|(held, wanted)| held != wanted) {
            Some(at) => same(&format!("{what} at {}", at as i64 - GUARD as i64), self.0[at], wanted.0[at]),
            None => Ok(()),
        }
    }
}
