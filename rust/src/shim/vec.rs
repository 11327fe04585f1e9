//! `Vec`, whose every growth can fail.

use super::alloc::{AllocError, Global, reserve};
use super::io::{self, Write};
use alloc::vec;
use core::ops::{Deref, DerefMut};
use core::{fmt, mem, slice};

/// Items in memory of their own. Beside its own methods it has those of slices alone, so nothing else can allocate.
#[derive(PartialEq, Eq, PartialOrd, Ord, Hash)]
pub struct Vec<T>(vec::Vec<T>);

impl<T> Vec<T> {
    /// No items, and no memory.
    #[inline]
    pub fn new(_: Global) -> Vec<T> {
        Vec(vec::Vec::new())
    }

    /// No items, and room for this many.
    #[inline]
    pub fn with_capacity(alloc: Global, capacity: usize) -> Result<Vec<T>, AllocError> {
        let mut items = Vec::new(alloc);
        items.reserve(capacity)?;
        Ok(items)
    }

    /// Returns the items, which are never freed.
    #[inline]
    pub fn leak<'a>(self) -> &'a mut [T]
    where
        T: 'a,
    {
        self.0.leak()
    }

    /// Makes room for `more` items behind those that there are.
    #[inline]
    pub fn reserve(&mut self, more: usize) -> Result<(), AllocError> {
        reserve(&mut self.0, more)
    }

    /// Adds an item at the end.
    #[inline]
    pub fn push(&mut self, item: T) -> Result<(), AllocError> {
        self.reserve(1)?;
        self.0.push(item);
        Ok(())
    }

    /// Adds an item at the end, where room for it was made.
    #[inline]
    pub fn push_reserved(&mut self, item: T) {
        debug_assert!(self.0.len() < self.0.capacity());
        self.0.push(item);
    }

    /// Adds an item before the one at `place`, or at the end.
    #[inline]
    pub fn insert(&mut self, place: usize, item: T) -> Result<(), AllocError> {
        self.reserve(1)?;
        self.0.insert(place, item);
        Ok(())
    }

    /// Puts the items in the order of their keys, and those of one key in the order that they have.
    pub fn sort_by_key<K: Ord>(&mut self, key: impl Fn(&T) -> K) -> Result<(), AllocError> {
        // The place that the item of each place comes from.
        let mut order = vec::Vec::new();
        reserve(&mut order, self.len())?;
        order.extend(self.iter().enumerate().map(|(from, item)| (key(item), from)));
        order.sort_unstable();
        for start in 0..order.len() {
            let mut place = start;
            while order[place].1 != start {
                let from = mem::replace(&mut order[place].1, place);
                self.0.swap(place, from);
                place = from;
            }
            order[place].1 = place;
        }
        Ok(())
    }

    /// How many items there is room for.
    #[inline]
    pub fn capacity(&self) -> usize {
        self.0.capacity()
    }

    #[inline]
    pub fn as_slice(&self) -> &[T] {
        &self.0
    }

    #[inline]
    pub fn as_mut_slice(&mut self) -> &mut [T] {
        &mut self.0
    }

    /// Removes the last item, and gives it.
    #[inline]
    pub fn pop(&mut self) -> Option<T> {
        self.0.pop()
    }

    /// Removes the items behind the first `len`.
    #[inline]
    pub fn truncate(&mut self, len: usize) {
        self.0.truncate(len);
    }

    /// Removes all items.
    #[inline]
    pub fn clear(&mut self) {
        self.0.clear();
    }

    /// The items as std has them.
    #[inline]
    pub fn into_std(self) -> vec::Vec<T> {
        self.0
    }
}

impl<T: Clone> Vec<T> {
    /// `len` times an item.
    #[inline]
    pub fn filled(alloc: Global, item: T, len: usize) -> Result<Vec<T>, AllocError> {
        let mut items = Vec::new(alloc);
        items.resize(len, item)?;
        Ok(items)
    }

    /// Copies of the items.
    #[inline]
    pub fn from_slice(alloc: Global, slice: &[T]) -> Result<Vec<T>, AllocError> {
        let mut items = Vec::new(alloc);
        items.extend_from_slice(slice)?;
        Ok(items)
    }

    /// Adds copies of the items at the end.
    #[inline]
    pub fn extend_from_slice(&mut self, slice: &[T]) -> Result<(), AllocError> {
        self.reserve(slice.len())?;
        self.0.extend_from_slice(slice);
        Ok(())
    }

    /// Makes it `len` items: removes those behind, or adds copies of `item`.
    #[inline]
    pub fn resize(&mut self, len: usize, item: T) -> Result<(), AllocError> {
        self.reserve(len.saturating_sub(self.len()))?;
        self.0.resize(len, item);
        Ok(())
    }
}

impl<T> From<vec::Vec<T>> for Vec<T> {
    fn from(items: vec::Vec<T>) -> Vec<T> {
        Vec(items)
    }
}

impl<T> Deref for Vec<T> {
    type Target = [T];

    #[inline]
    fn deref(&self) -> &[T] {
        &self.0
    }
}

impl<T> DerefMut for Vec<T> {
    #[inline]
    fn deref_mut(&mut self) -> &mut [T] {
        &mut self.0
    }
}

impl<T> IntoIterator for Vec<T> {
    type Item = T;
    type IntoIter = vec::IntoIter<T>;

    #[inline]
    fn into_iter(self) -> vec::IntoIter<T> {
        self.0.into_iter()
    }
}

impl<'a, T> IntoIterator for &'a Vec<T> {
    type Item = &'a T;
    type IntoIter = slice::Iter<'a, T>;

    #[inline]
    fn into_iter(self) -> slice::Iter<'a, T> {
        self.0.iter()
    }
}

impl<T: fmt::Debug> fmt::Debug for Vec<T> {
    fn fmt(&self, f: &mut fmt::Formatter<'_>) -> fmt::Result {
        self.0.fmt(f)
    }
}

/// What is written goes to the end.
impl Write for Vec<u8> {
    fn write(&mut self, bytes: &[u8]) -> io::Result<usize> {
        self.extend_from_slice(bytes)?;
        Ok(bytes.len())
    }

    fn flush(&mut self) -> io::Result<()> {
        Ok(())
    }
}

/// `collect` of an iterator.
pub trait CollectIn: Iterator + Sized {
    /// The items in their order.
    fn collect_in(self, alloc: Global) -> Result<Vec<Self::Item>, AllocError> {
        let mut items = Vec::new(alloc);
        for item in self {
            items.push(item)?;
        }
        Ok(items)
    }
}

impl<I: Iterator> CollectIn for I {}
