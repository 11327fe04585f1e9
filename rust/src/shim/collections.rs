//! An ordered map, whose every growth can fail.

use super::alloc::{AllocError, Global, reserve};
use alloc::vec::{self, Vec};
use core::borrow::Borrow;
use core::iter::Flatten;
use core::mem;

// The most entries of a leaf.
const LEAF: usize = 64;

/// Entries in the order of their keys, no two of which are equal.
pub struct BTreeMap<K, V> {
    // The entries in order, in leaves that are never empty.
    leaves: Vec<Vec<(K, V)>>,
    // Where `get_mut` found its last key, which is often the next one too.
    last: (usize, usize),
}

impl<K: Ord, V> BTreeMap<K, V> {
    /// No entries, and no memory.
    pub fn new(_: Global) -> BTreeMap<K, V> {
        BTreeMap { leaves: Vec::new(), last: (0, 0) }
    }

    /// Whether there are no entries.
    pub fn is_empty(&self) -> bool {
        self.leaves.is_empty()
    }

    /// Removes all entries.
    pub fn clear(&mut self) {
        self.leaves.clear();
    }

    // The leaf that has the key or that it belongs into, and there its place, or that of the first greater key.
    fn place<Q: Ord + ?Sized>(&self, key: &Q) -> (usize, Result<usize, usize>)
    where
        K: Borrow<Q>,
    {
        let up_to = self.leaves.partition_point(|leaf| leaf[0].0.borrow() <= key);
        let leaf = up_to.saturating_sub(1);
        match self.leaves.get(leaf) {
            None => (leaf, Err(0)),
            Some(entries) => (leaf, entries.binary_search_by(|(k, _)| k.borrow().cmp(key))),
        }
    }

    /// The value of a key.
    pub fn get<Q: Ord + ?Sized>(&self, key: &Q) -> Option<&V>
    where
        K: Borrow<Q>,
    {
        let (leaf, at) = self.place(key);
        let at = at.ok()?;
        Some(&self.leaves[leaf][at].1)
    }

    /// The value of a key, to be changed.
    pub fn get_mut<Q: Ord + ?Sized>(&mut self, key: &Q) -> Option<&mut V>
    where
        K: Borrow<Q>,
    {
        let (leaf, at) = self.last;
        if !matches!(self.leaves.get(leaf).and_then(|entries| entries.get(at)), Some((k, _)) if k.borrow() == key) {
            let (leaf, at) = self.place(key);
            self.last = (leaf, at.ok()?);
        }
        Some(&mut self.leaves[self.last.0][self.last.1].1)
    }

    /// Gives a key this value. The one that it had comes back.
    pub fn insert(&mut self, key: K, value: V) -> Result<Option<V>, AllocError> {
        let (mut leaf, at) = self.place(&key);
        let mut at = match at {
            Ok(at) => return Ok(Some(mem::replace(&mut self.leaves[leaf][at].1, value))),
            Err(at) => at,
        };
        if self.leaves.get(leaf).map_or(true, |entries| entries.len() == LEAF) {
            let mut upper = Vec::new();
            reserve(&mut upper, LEAF)?;
            reserve(&mut self.leaves, 1)?;
            if self.leaves.is_empty() {
                self.leaves.push(upper);
            } else {
                upper.extend(self.leaves[leaf].drain(LEAF / 2..));
                self.leaves.insert(leaf + 1, upper);
                if at > LEAF / 2 {
                    (leaf, at) = (leaf + 1, at - LEAF / 2);
                }
            }
        }
        self.leaves[leaf].insert(at, (key, value));
        Ok(None)
    }

    /// The entries in the order of their keys.
    pub fn iter(&self) -> impl Iterator<Item = (&K, &V)> {
        self.leaves.iter().flatten().map(|(key, value)| (key, value))
    }
}

/// The entries in the order of their keys.
impl<K, V> IntoIterator for BTreeMap<K, V> {
    type Item = (K, V);
    type IntoIter = Flatten<vec::IntoIter<Vec<(K, V)>>>;

    fn into_iter(self) -> Self::IntoIter {
        self.leaves.into_iter().flatten()
    }
}
