//! Bit sets over entries and over modules.

use std::marker::PhantomData;

use oxc_index::Idx;

/// A set of bits below a limit that is fixed when it is made.
#[derive(Debug, Clone, PartialEq, Eq, Hash)]
pub struct BitSet(Vec<u64>);

impl BitSet {
    /// No bit of `limit` bits.
    pub fn new(limit: u32) -> Self {
        Self(vec![0; limit.div_ceil(64) as usize])
    }

    /// Whether a bit is set.
    #[inline]
    pub fn has_bit(&self, bit: u32) -> bool {
        self.0[bit as usize / 64] >> (bit % 64) & 1 == 1
    }

    /// Sets a bit.
    #[inline]
    pub fn set_bit(&mut self, bit: u32) {
        self.0[bit as usize / 64] |= 1 << (bit % 64);
    }

    /// Adds the bits of another set.
    #[inline]
    pub fn union(&mut self, other: &Self) {
        for (mine, theirs) in self.0.iter_mut().zip(&other.0) {
            *mine |= theirs;
        }
    }

    /// The bits that are set, upwards.
    #[inline]
    pub fn index_of_one(&self) -> impl Iterator<Item = u32> {
        self.0
            .iter()
            .zip(0..)
            .flat_map(|(&word, place)| ones(word).map(move |bit| place * 64 + bit))
    }
}

/// The bits that are set in one word, upwards.
#[inline]
fn ones(mut word: u64) -> impl Iterator<Item = u32> {
    std::iter::from_fn(move || {
        if word == 0 {
            return None;
        }
        let bit = word.trailing_zeros();
        word &= word - 1;
        Some(bit)
    })
}

/// A set of indices.
#[derive(Debug, Clone, PartialEq, Eq)]
pub struct IndexBitSet<I> {
    words: Vec<u64>,
    index: PhantomData<fn(I)>,
}

impl<I: Idx> IndexBitSet<I> {
    /// None of `length` indices.
    pub fn new(length: usize) -> Self {
        Self { words: vec![0; length.div_ceil(64)], index: PhantomData }
    }

    /// Whether an index is held.
    #[inline]
    pub fn has_bit(&self, index: I) -> bool {
        self.words[index.index() / 64] >> (index.index() % 64) & 1 == 1
    }

    /// Puts an index in.
    #[inline]
    pub fn set_bit(&mut self, index: I) {
        self.words[index.index() / 64] |= 1 << (index.index() % 64);
    }
}
