//! What a call needs: how long its areas have to be, and how much stack it takes.
//!
//! Areas may be longer. One item less is refused, with 12 ([`Refusal::AREA`](crate::Refusal::AREA))
//! or 13 ([`Refusal::SCRATCH`](crate::Refusal::SCRATCH)); too little stack can't be refused, and
//! ends the program.

use std::collections::BTreeSet;

use crate::limits;

/// The seven calls.
#[derive(Debug, Clone, Copy, PartialEq, Eq, PartialOrd, Ord, Hash)]
pub enum Call {
    /// [`similarity`](crate::similarity).
    Similarity,
    /// [`cut`](crate::cut).
    Cut,
    /// [`filter`](crate::filter).
    Filter,
    /// [`capture`](crate::capture).
    Capture,
    /// [`merge`](crate::merge).
    Merge,
    /// [`chunks`](crate::chunks).
    Chunks,
    /// [`chunk_name`](crate::chunk_name).
    Name,
}

impl Call {
    /// All calls.
    pub const ALL: [Self; 7] = [
        Self::Similarity,
        Self::Cut,
        Self::Filter,
        Self::Capture,
        Self::Merge,
        Self::Chunks,
        Self::Name,
    ];
}

/// How much stack a call takes at most, in bytes, whatever it is handed: the frames of the archive's
/// functions are fixed, and the one that calls itself goes no deeper than an id has bytes. It isn't
/// proved; a test adds the frames up.
///
/// ```
/// use std::thread;
/// use gentropi::needs::{self, Call};
///
/// // What a thread needs besides is its own.
/// let stack = needs::stack_bytes(Call::Similarity) + 64 * 1024;
/// let work = || gentropi::similarity(b"src/a", b"src/b");
/// let thread = thread::Builder::new().stack_size(stack).spawn(work).unwrap();
/// assert_eq!(thread.join().unwrap(), Ok(49));
/// ```
pub const fn stack_bytes(call: Call) -> usize {
    let kilobytes = match call {
        Call::Similarity | Call::Cut | Call::Filter | Call::Name => 4,
        Call::Capture => 160,
        Call::Merge => 64,
        Call::Chunks => 576,
    };
    kilobytes * 1_024
}

/// How many marks and how many words of scratch [`capture`](crate::capture) needs.
///
/// ```
/// use gentropi::{Chains, capture, flag::ELIGIBLE, needs};
///
/// let chains = Chains::from_lists([vec![1], vec![]]);
/// let items = needs::capture_items(2);
/// let (mut marks, mut scratch) = (vec![0; items], vec![0; items]);
/// assert!(capture(chains.modules(&[ELIGIBLE; 2]), 0, true, &mut marks, &mut scratch).is_ok());
/// ```
pub const fn capture_items(modules: usize) -> usize {
    modules
}

/// How many items each area of [`merge`](crate::merge) needs. In [`raw`](crate::raw) and in C bits
/// are counted in words: see [`bits_words`].
///
/// ```
/// use gentropi::{MergeAreas, Subgroups, merge, needs};
///
/// let subgroups = Subgroups { entries: 1, sizes: &[5], bits: &[[1, 0, 0, 0]] };
/// let items = needs::merge_items(1);
/// let (mut numbers, mut sizes, mut bits) = (vec![9; items], vec![9; items], vec![[9; 4]; items]);
/// let areas = MergeAreas { numbers: &mut numbers, sizes: &mut sizes, bits: &mut bits };
/// assert_eq!(merge(subgroups, 0.0, areas), Ok(()));
/// ```
pub const fn merge_items(subgroups: usize) -> usize {
    subgroups
}

/// How many items each area of [`chunks`](crate::chunks) needs, except scratch: as many as there are
/// modules, though fewer chunks may come; a mark is a byte. In [`raw`](crate::raw) and in C bits are
/// counted in words.
///
/// ```
/// assert_eq!(gentropi::needs::chunks_items(3), 3);
/// ```
pub const fn chunks_items(modules: usize) -> usize {
    modules
}

/// How many words of bits so many items have, as [`raw`](crate::raw) and C count them.
///
/// ```
/// assert_eq!(gentropi::needs::bits_words(3), 12);
/// ```
pub const fn bits_words(items: usize) -> usize {
    4 * items
}

/// How many words of scratch [`chunks`](crate::chunks) needs: for each module 32, and one more for
/// each pair of a group and a name that an answer gives. The answers are those of one group after
/// those of another.
///
/// ```
/// // Two modules and two groups; the first group gives one name, the second two.
/// let words = gentropi::needs::chunks_scratch_words(&[2, 2, 3, 7], 2);
/// assert_eq!(words, (32 + 1 + 2) * 2);
/// ```
pub fn chunks_scratch_words(answers: &[u32], modules: usize) -> usize {
    let named = |answers: &[u32]| {
        let names: BTreeSet<u32> = answers.iter().copied().filter(|name| *name >= 2).collect();
        names.len()
    };
    let pairs: usize = answers.chunks(modules.max(1)).map(named).sum();
    (pairs + 32) * modules
}

/// How many bytes the area of [`chunk_name`](crate::chunk_name) needs, by the length of the group's
/// name: 100, or as many as that has, also where the chunk's name comes out shorter.
///
/// ```
/// assert_eq!(gentropi::needs::name_bytes(7), 100);
/// assert_eq!(gentropi::needs::name_bytes(101), 101);
/// ```
pub const fn name_bytes(group_name: usize) -> usize {
    if group_name > limits::CHUNK_NAME_BYTES { group_name } else { limits::CHUNK_NAME_BYTES }
}
