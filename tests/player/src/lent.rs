//! Memory that a test lends, and may write over between two calls.
use std::ops::{Deref, DerefMut};

/// An array of which the first elements are lent: all of them, unless `lend` says fewer. It derefs to what is lent; two are equal where all elements
/// are, lent or not.
#[derive(Clone, PartialEq)]
pub struct Lent<T> {
    all: Vec<T>,
    lent: usize,
}

impl<T: Copy> Lent<T> {
    pub fn new(value: T, count: usize) -> Self {
        Self { all: vec![value; count], lent: count }
    }

    /// From now on only so many are lent.
    pub fn lend(&mut self, count: usize) {
        assert!(count <= self.all.len());
        self.lent = count;
    }
}

impl<T> Deref for Lent<T> {
    type Target = [T];
    fn deref(&self) -> &[T] {
        &self.all[..self.lent]
    }
}

impl<T> DerefMut for Lent<T> {
    fn deref_mut(&mut self) -> &mut [T] {
        &mut self.all[..self.lent]
    }
}

/// Words and half words whose bytes are all `byte`.
pub fn words(byte: u8, count: usize) -> Lent<u64> {
    Lent::new(u64::from_ne_bytes([byte; 8]), count)
}

pub fn halves(byte: u8, count: usize) -> Lent<u32> {
    Lent::new(u32::from_ne_bytes([byte; 4]), count)
}
