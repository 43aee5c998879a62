//! A list of at most `N` items, without an allocation.

use std::ops::{Deref, DerefMut};

#[derive(Clone)]
pub struct List<T, const N: usize> {
    items: [T; N],
    len: usize,
}

impl<T: Copy, const N: usize> List<T, N> {
    /// An empty list; `blank` stands in the places not yet taken.
    pub fn filled_with(blank: T) -> Self {
        List { items: [blank; N], len: 0 }
    }

    pub fn is_full(&self) -> bool {
        self.len == N
    }

    /// Adds an item to a list that is not full.
    #[inline]
    pub fn push(&mut self, item: T) {
        self.items[self.len] = item;
        self.len += 1;
    }
}

impl<T, const N: usize> Deref for List<T, N> {
    type Target = [T];
    #[inline]
    fn deref(&self) -> &[T] {
        &self.items[..self.len]
    }
}

impl<T, const N: usize> DerefMut for List<T, N> {
    #[inline]
    fn deref_mut(&mut self) -> &mut [T] {
        &mut self.items[..self.len]
    }
}
