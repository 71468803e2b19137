//! Stand-in for `oxc_index`: vectors that are indexed by a number type of their own.
//!
//! Assumes: an index is its position, and `push` hands back the position of the new item.
#![forbid(unsafe_code)]

use std::{
    marker::PhantomData,
    ops::{Index, IndexMut},
};

/// A number type that indexes one kind of vector.
pub trait Idx: Copy {
    /// The index of a position.
    fn from_usize(position: usize) -> Self;
    /// The position of an index.
    fn index(self) -> usize;
}

/// Declares an index type: `define_index_type! { pub struct Name = u32; }`.
#[macro_export]
macro_rules! define_index_type {
    ($(#[$meta:meta])* $vis:vis struct $name:ident = u32;) => {
        $(#[$meta])*
        #[derive(Debug, Clone, Copy, PartialEq, Eq, PartialOrd, Ord, Hash)]
        $vis struct $name(u32);

        #[allow(dead_code)]
        impl $name {
            /// The bare number.
            #[inline]
            $vis fn raw(self) -> u32 {
                self.0
            }
        }

        impl $crate::Idx for $name {
            #[inline]
            fn from_usize(position: usize) -> Self {
                Self(u32::try_from(position).expect("an index fits in 32 bits"))
            }
            #[inline]
            fn index(self) -> usize {
                self.0 as usize
            }
        }
    };
}

/// Makes an `IndexVec` as `vec!` makes a `Vec`.
#[macro_export]
macro_rules! index_vec {
    ($($part:tt)*) => { $crate::IndexVec::from_vec(vec![$($part)*]) };
}

/// A vector that is indexed by `I`.
#[derive(Debug, Clone, PartialEq, Eq)]
pub struct IndexVec<I, T> {
    items: Vec<T>,
    index: PhantomData<fn(I)>,
}

impl<I: Idx, T> IndexVec<I, T> {
    /// The same items, indexed by `I`.
    pub fn from_vec(items: Vec<T>) -> Self {
        Self { items, index: PhantomData }
    }

    /// Adds an item and hands back its index.
    pub fn push(&mut self, item: T) -> I {
        self.items.push(item);
        I::from_usize(self.items.len() - 1)
    }

    /// How many items there are.
    pub fn len(&self) -> usize {
        self.items.len()
    }

    /// Whether there is none.
    pub fn is_empty(&self) -> bool {
        self.items.is_empty()
    }

    /// The items in order.
    pub fn iter(&self) -> std::slice::Iter<'_, T> {
        self.items.iter()
    }

    /// The items in order, to be changed.
    pub fn iter_mut(&mut self) -> std::slice::IterMut<'_, T> {
        self.items.iter_mut()
    }

    /// The items in order, each with its index.
    pub fn iter_enumerated(&self) -> impl Iterator<Item = (I, &T)> {
        self.items.iter().enumerate().map(|(position, item)| (I::from_usize(position), item))
    }
}

impl<I, T> Default for IndexVec<I, T> {
    fn default() -> Self {
        Self { items: Vec::new(), index: PhantomData }
    }
}

impl<I: Idx, T> Index<I> for IndexVec<I, T> {
    type Output = T;
    #[inline]
    fn index(&self, index: I) -> &T {
        &self.items[index.index()]
    }
}

impl<I: Idx, T> IndexMut<I> for IndexVec<I, T> {
    #[inline]
    fn index_mut(&mut self, index: I) -> &mut T {
        &mut self.items[index.index()]
    }
}

impl<I, T> IntoIterator for IndexVec<I, T> {
    type Item = T;
    type IntoIter = std::vec::IntoIter<T>;
    fn into_iter(self) -> Self::IntoIter {
        self.items.into_iter()
    }
}

impl<I: Idx, T> FromIterator<T> for IndexVec<I, T> {
    fn from_iter<S: IntoIterator<Item = T>>(items: S) -> Self {
        Self::from_vec(items.into_iter().collect())
    }
}
