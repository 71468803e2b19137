//! The set: a map without values.

use std::hash::Hash;

use crate::{map::FxHashMap, order::Numbered};

/// A hash set.
#[derive(Debug, Clone)]
pub struct FxHashSet<T>(FxHashMap<T, ()>);

impl<T> Default for FxHashSet<T> {
    fn default() -> Self {
        Self(FxHashMap::default())
    }
}

impl<T: Eq + Hash + Clone> FxHashSet<T> {
    /// Puts an item in, and says whether it is new.
    pub fn insert(&mut self, item: T) -> bool {
        self.0.insert(item, ()).is_none()
    }

    /// Takes an item out, and says whether it was there.
    pub fn remove(&mut self, item: &T) -> bool {
        self.0.remove(item).is_some()
    }

    /// How many items there are.
    pub fn len(&self) -> usize {
        self.0.len()
    }

    /// Whether there is none.
    pub fn is_empty(&self) -> bool {
        self.0.is_empty()
    }
}

impl<T: Eq + Hash + Clone + Numbered> FxHashSet<T> {
    /// The items, in the chosen order.
    pub fn iter(&self) -> std::vec::IntoIter<&T> {
        self.0.keys()
    }

    /// Takes all items out, in the chosen order.
    pub fn drain(&mut self) -> impl Iterator<Item = T> {
        Self(self.0.take()).into_iter()
    }
}

impl<T: Eq + Hash + Clone + Numbered> IntoIterator for FxHashSet<T> {
    type Item = T;
    type IntoIter = std::vec::IntoIter<T>;
    fn into_iter(self) -> Self::IntoIter {
        self.0.into_iter().map(|(item, ())| item).collect::<Vec<_>>().into_iter()
    }
}

impl<T: Eq + Hash + Clone> Extend<T> for FxHashSet<T> {
    fn extend<S: IntoIterator<Item = T>>(&mut self, items: S) {
        for item in items {
            self.insert(item);
        }
    }
}

impl<T: Eq + Hash + Clone> FromIterator<T> for FxHashSet<T> {
    fn from_iter<S: IntoIterator<Item = T>>(items: S) -> Self {
        let mut set = Self::default();
        set.extend(items);
        set
    }
}
