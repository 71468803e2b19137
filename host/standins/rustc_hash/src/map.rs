//! The map: the standard library's, with the walk put into the chosen order.

use std::{
    collections::{HashMap, hash_map},
    hash::Hash,
};

use crate::{
    hasher::FxBuildHasher,
    order::{Holding, Numbered, Stop, arrange, lowest_held},
};

/// A hash map. `entry` hands out the standard library's entry, since the crate's text names it.
#[derive(Debug, Clone)]
pub struct FxHashMap<K, V> {
    table: HashMap<K, V, FxBuildHasher>,
    /// When each key came in; a key that left may still be listed.
    inserted: HashMap<K, u64, FxBuildHasher>,
    arrivals: u64,
}

impl<K, V> Default for FxHashMap<K, V> {
    fn default() -> Self {
        Self { table: HashMap::default(), inserted: HashMap::default(), arrivals: 0 }
    }
}

impl<K: Eq + Hash + Clone, V> FxHashMap<K, V> {
    /// The entry of a key.
    pub fn entry(&mut self, key: K) -> hash_map::Entry<'_, K, V> {
        self.note(&key);
        self.table.entry(key)
    }

    /// Sets the value of a key and hands back the one before.
    pub fn insert(&mut self, key: K, value: V) -> Option<V> {
        self.note(&key);
        self.table.insert(key, value)
    }

    /// Takes a key out.
    pub fn remove(&mut self, key: &K) -> Option<V> {
        self.table.remove(key)
    }

    /// The value of a key.
    pub fn get(&self, key: &K) -> Option<&V> {
        self.table.get(key)
    }

    /// The value of a key, to be changed.
    pub fn get_mut(&mut self, key: &K) -> Option<&mut V> {
        self.table.get_mut(key)
    }

    /// How many keys there are.
    pub fn len(&self) -> usize {
        self.table.len()
    }

    /// Whether there is none.
    pub fn is_empty(&self) -> bool {
        self.table.is_empty()
    }

    /// Takes every key out, keeping nothing.
    pub(crate) fn take(&mut self) -> Self {
        std::mem::take(self)
    }

    fn note(&mut self, key: &K) {
        if !self.table.contains_key(key) {
            self.inserted.insert(key.clone(), self.arrivals);
            self.arrivals += 1;
        }
    }
}

impl<K: Eq + Hash + Clone + Numbered, V: Holding> FxHashMap<K, V> {
    /// The keys, in the chosen order.
    pub fn keys(&self) -> std::vec::IntoIter<&K> {
        arrange(K::KIND, self.stops(), self.table.keys().collect())
    }

    /// What the order of each key can be decided by, as the table has them.
    fn stops(&self) -> Vec<Stop> {
        let stop = |(key, value): (&K, &V)| Stop {
            inserted: self.inserted[key],
            number: key.number(),
            lowest: lowest_held(K::KIND, value),
        };
        self.table.iter().map(stop).collect()
    }
}

impl<K: Eq + Hash + Clone + Numbered, V: Holding> IntoIterator for FxHashMap<K, V> {
    type Item = (K, V);
    type IntoIter = std::vec::IntoIter<(K, V)>;
    fn into_iter(self) -> Self::IntoIter {
        arrange(K::KIND, self.stops(), self.table.into_iter().collect())
    }
}
