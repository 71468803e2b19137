//! Stand-in for `itertools`: the five things that the crate's text uses.
//!
//! Assumes: `sorted_unstable_by` and its kin are the standard library's unstable sorts of the
//! collected items.
#![forbid(unsafe_code)]

use std::{cmp::Ordering, fmt::Display};

/// The methods that the crate's text calls on iterators.
pub trait Itertools: Iterator + Sized {
    /// The items as a `Vec`.
    fn collect_vec(self) -> Vec<Self::Item> {
        self.collect()
    }

    /// The items, sorted by a comparison.
    fn sorted_unstable_by<F>(self, compare: F) -> std::vec::IntoIter<Self::Item>
    where
        F: FnMut(&Self::Item, &Self::Item) -> Ordering,
    {
        let mut items = self.collect_vec();
        items.sort_unstable_by(compare);
        items.into_iter()
    }

    /// The items, sorted by a key.
    fn sorted_unstable_by_key<K: Ord, F>(self, key: F) -> std::vec::IntoIter<Self::Item>
    where
        F: FnMut(&Self::Item) -> K,
    {
        let mut items = self.collect_vec();
        items.sort_unstable_by_key(key);
        items.into_iter()
    }

    /// The items as one text, with a separator between them.
    fn join(self, separator: &str) -> String
    where
        Self::Item: Display,
    {
        self.map(|item| item.to_string()).collect_vec().join(separator)
    }
}

impl<I: Iterator> Itertools for I {}

/// One of two iterators over the same items.
pub enum Either<L, R> {
    Left(L),
    Right(R),
}

impl<L: Iterator, R: Iterator<Item = L::Item>> Iterator for Either<L, R> {
    type Item = L::Item;
    fn next(&mut self) -> Option<L::Item> {
        match self {
            Self::Left(items) => items.next(),
            Self::Right(items) => items.next(),
        }
    }
}
