//! Iterators over typed caches that threads share.

use super::cache::{Cache, Segment};
use std::fmt;
use std::iter::FusedIterator;
use std::ops::Deref;

/// An entry of a cache that threads share, cloned by [`Cache::iter`]. It dereferences to its value.
#[derive(Clone, Debug, PartialEq, Eq)]
pub struct EntryRef<K, V> {
    key: K,
    value: V,
}

impl<K, V> EntryRef<K, V> {
    /// Returns the key.
    pub fn key(&self) -> &K {
        &self.key
    }

    /// Returns the value.
    pub fn value(&self) -> &V {
        &self.value
    }

    /// Returns the key and the value.
    pub fn pair(&self) -> (&K, &V) {
        (&self.key, &self.value)
    }

    /// Returns the key and the value by value.
    pub fn into_pair(self) -> (K, V) {
        (self.key, self.value)
    }
}

impl<K, V> Deref for EntryRef<K, V> {
    type Target = V;

    fn deref(&self) -> &V {
        &self.value
    }
}

/// An iterator over clones of the unexpired entries of a cache that threads share, created by
/// [`Cache::iter`].
pub struct Iter<'a, K, V> {
    // The segments that haven't been cloned.
    left: &'a [Segment<K, V>],
    cloned: std::vec::IntoIter<EntryRef<K, V>>,
    now: u64,
}

impl<'a, K, V> Iter<'a, K, V> {
    /// Returns an iterator over the entries that are unexpired at a moment.
    pub(super) fn new(segments: &'a [Segment<K, V>], now: u64) -> Iter<'a, K, V> {
        Iter {
            left: segments,
            cloned: Vec::new().into_iter(),
            now,
        }
    }
}

impl<K: Clone, V: Clone> Iterator for Iter<'_, K, V> {
    type Item = EntryRef<K, V>;

    fn next(&mut self) -> Option<EntryRef<K, V>> {
        loop {
            if let Some(entry) = self.cloned.next() {
                return Some(entry);
            }
            let (segment, left) = self.left.split_first()?;
            self.left = left;
            self.cloned = entries(segment, self.now).into_iter();
        }
    }

    fn size_hint(&self) -> (usize, Option<usize>) {
        let left = self.left.is_empty().then(|| self.cloned.len());
        (self.cloned.len(), left)
    }
}

impl<K: Clone, V: Clone> FusedIterator for Iter<'_, K, V> {}

impl<K, V> fmt::Debug for Iter<'_, K, V> {
    fn fmt(&self, f: &mut fmt::Formatter<'_>) -> fmt::Result {
        f.debug_struct("Iter")
            .field("segments_left", &self.left.len())
            .finish_non_exhaustive()
    }
}

/// Clones the unexpired entries of a segment.
fn entries<K: Clone, V: Clone>(segment: &Segment<K, V>, now: u64) -> Vec<EntryRef<K, V>> {
    let state = segment.state.lock();
    let slots = state.table.walk(now).into_iter();
    let cloned = slots.map(|slot| {
        let (key, value) = state.table.pair(slot);
        let (key, value) = (key.clone(), value.clone());
        EntryRef { key, value }
    });
    cloned.collect()
}

impl<'a, K: Clone, V: Clone, S> IntoIterator for &'a Cache<K, V, S> {
    type Item = EntryRef<K, V>;
    type IntoIter = Iter<'a, K, V>;

    fn into_iter(self) -> Iter<'a, K, V> {
        self.iter()
    }
}
