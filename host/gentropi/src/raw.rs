//! The calls one to one, over slices and places that the caller lends.
//!
//! Each function answers 0 or the number of a refusal, as the library does, and counts are apart
//! from the lengths of the tables, so that also what is damaged can be handed over: the library
//! refuses it. On a refusal all that is lent keeps its content. Most callers want the functions at
//! the root of the crate; [`Refusal::check`](crate::Refusal::check) makes a `Result` of a number.
//!
//! ```
//! use gentropi::{Refusal, raw};
//!
//! // Two modules are said to be there, and the tables have one.
//! let tables = raw::CutTables {
//!     n: 2,
//!     bytes: b"a",
//!     offsets: &[0, 1],
//!     sizes: &[5],
//!     minimum: 0.0,
//!     maximum: 9.0,
//! };
//! let mut places = raw::CutPlaces::default();
//! assert_eq!(Refusal::check(raw::cut(&tables, &mut places)), Err(Refusal::LENGTH));
//! ```

use crate::{FilteredModule, StaticFilter, sys};

mod name;

pub use name::{NameTables, name};

/// Similarity of two ids: writes `score`.
///
/// ```
/// let mut score = 9;
/// assert_eq!((gentropi::raw::similarity(b"a", b"j", &mut score), score), (0, 1));
/// ```
pub fn similarity(lhs: &[u8], rhs: &[u8], score: &mut u32) -> u32 {
    // SAFETY: every pointer is that of a live slice with its length, or of a live place; a place
    // is lent to this call alone. The library is proved to stay within them for every content.
    unsafe { sys::gentropi_similarity(lhs.as_ptr(), lhs.len(), rhs.as_ptr(), rhs.len(), score) }
}

/// What Cut is handed.
#[derive(Debug, Clone, Copy, PartialEq)]
pub struct CutTables<'a> {
    /// How many modules there are.
    pub n: usize,
    /// The slice that the ids are parts of.
    pub bytes: &'a [u8],
    /// `n + 1` offsets into it.
    pub offsets: &'a [u32],
    /// The size of each module.
    pub sizes: &'a [u64],
    /// What each side has to reach.
    pub minimum: f64,
    /// What a side should not pass.
    pub maximum: f64,
}

/// The places that Cut writes.
#[derive(Debug, Clone, Copy, PartialEq, Default)]
pub struct CutPlaces {
    /// 0 if there is a cut. If there is none, the other places keep their content, and this is 1
    /// where there are fewer than two modules, 2 where there are more and no cut is allowed.
    pub why_none: u8,
    /// How many modules are on the left.
    pub index: usize,
    /// The size of the left side.
    pub left: f64,
    /// The size of the right side.
    pub right: f64,
}

/// Cut of modules in the order given: writes the places.
///
/// ```
/// use gentropi::raw::{self, CutPlaces, CutTables};
///
/// let (bytes, offsets, sizes) = (b"ab", &[0, 1, 2], &[5, 7]);
/// let tables = CutTables { n: 2, bytes, offsets, sizes, minimum: 0.0, maximum: 9.0 };
/// let mut places = CutPlaces::default();
/// assert_eq!(raw::cut(&tables, &mut places), 0);
/// assert_eq!(places, CutPlaces { why_none: 0, index: 1, left: 5.0, right: 7.0 });
/// // No cut leaves 6 on both sides, and the other places stay as they are.
/// assert_eq!(raw::cut(&CutTables { minimum: 6.0, ..tables }, &mut places), 0);
/// assert_eq!(places, CutPlaces { why_none: 2, index: 1, left: 5.0, right: 7.0 });
/// ```
pub fn cut(tables: &CutTables<'_>, places: &mut CutPlaces) -> u32 {
    // SAFETY: as in `similarity`; the four places are fields of one value that is lent to this call.
    unsafe {
        sys::gentropi_cut(
            tables.n,
            tables.bytes.as_ptr(),
            tables.bytes.len(),
            tables.offsets.as_ptr(),
            tables.offsets.len(),
            tables.sizes.as_ptr(),
            tables.sizes.len(),
            tables.minimum,
            tables.maximum,
            &mut places.why_none,
            &mut places.index,
            &mut places.left,
            &mut places.right,
        )
    }
}

/// Filter on one module: writes whether it passes.
///
/// ```
/// use gentropi::{FilteredModule, StaticFilter, raw};
///
/// let mut passes = false;
/// let number = raw::filter(&StaticFilter::default(), FilteredModule::default(), &mut passes);
/// assert_eq!((number, passes), (0, true));
/// ```
pub fn filter(filter: &StaticFilter, module: FilteredModule, passes: &mut bool) -> u32 {
    // SAFETY: as in `similarity`.
    unsafe {
        sys::gentropi_filter(
            filter.mask,
            filter.min_module_size.is_some(),
            filter.min_module_size.unwrap_or_default(),
            filter.max_module_size.is_some(),
            filter.max_module_size.unwrap_or_default(),
            filter.min_share_count.is_some(),
            filter.min_share_count.unwrap_or_default(),
            module.tags,
            module.size,
            module.share_count,
            passes,
        )
    }
}

/// What Capture is handed.
#[derive(Debug, Clone, Copy, PartialEq, Eq)]
pub struct CaptureTables<'a> {
    /// How many modules there are.
    pub n: usize,
    /// How many dependency records there are.
    pub d: usize,
    /// Whether dependencies are captured too.
    pub recursive: bool,
    /// The module to begin with.
    pub start: u32,
    /// The flag byte of each module.
    pub flags: &'a [u8],
    /// The first record of each module, or 0.
    pub first: &'a [u32],
    /// The module that each record names; `d + 1` numbers, of which the first is never read.
    pub dependency: &'a [u32],
    /// The record after each record, or 0; `d + 1` numbers, of which the first is never read.
    pub next: &'a [u32],
}

/// Capture of a module: writes the first `n` marks, and zeros into all of `scratch`.
///
/// ```
/// use gentropi::raw::{self, CaptureTables};
///
/// // Module 0 depends on 1, by record 1; record 0 is never read.
/// let tables = CaptureTables {
///     n: 2,
///     d: 1,
///     recursive: true,
///     start: 0,
///     flags: &[3, 3],
///     first: &[1, 0],
///     dependency: &[9, 1],
///     next: &[9, 0],
/// };
/// let (mut marks, mut scratch) = ([9; 2], [9; 2]);
/// assert_eq!(raw::capture(&tables, &mut marks, &mut scratch), 0);
/// assert_eq!((marks, scratch), ([1, 1], [0, 0]));
/// // A scratch that is too short is refused, and the marks stay as they are.
/// assert_eq!(raw::capture(&tables, &mut marks, &mut scratch[..1]), 13);
/// ```
pub fn capture(tables: &CaptureTables<'_>, marks: &mut [u8], scratch: &mut [u32]) -> u32 {
    // SAFETY: as in `similarity`; the areas are lent to this call alone.
    unsafe {
        sys::gentropi_capture(
            tables.n,
            tables.d,
            tables.recursive,
            tables.start,
            tables.flags.as_ptr(),
            tables.flags.len(),
            tables.first.as_ptr(),
            tables.first.len(),
            tables.dependency.as_ptr(),
            tables.dependency.len(),
            tables.next.as_ptr(),
            tables.next.len(),
            marks.as_mut_ptr(),
            marks.len(),
            scratch.as_mut_ptr(),
            scratch.len(),
        )
    }
}

/// What Merge is handed.
#[derive(Debug, Clone, Copy, PartialEq)]
pub struct MergeTables<'a> {
    /// How many subgroups there are.
    pub k: usize,
    /// How many entries there are.
    pub entries: usize,
    /// The size of each subgroup.
    pub sizes: &'a [u64],
    /// The entry bits of each subgroup, four words each.
    pub bits: &'a [u64],
    /// Below it a subgroup seeks another to join.
    pub threshold: f64,
}

/// The areas that Merge writes.
#[derive(Debug, PartialEq, Eq)]
pub struct MergeAreas<'a> {
    /// The number of the subgroup that each ended in.
    pub numbers: &'a mut [u32],
    /// The size of each, 0 for one that vanished.
    pub sizes: &'a mut [u64],
    /// The entry bits of each, four words each, 0 for one that vanished.
    pub bits: &'a mut [u64],
}

/// Merge of small subgroups: writes the first `k` numbers and sizes and `4 * k` words of bits.
///
/// ```
/// use gentropi::raw::{self, MergeAreas, MergeTables};
///
/// let bits = &[1, 0, 0, 0, 2, 0, 0, 0];
/// let tables = MergeTables { k: 2, entries: 2, sizes: &[5, 100], bits, threshold: 10.0 };
/// let (mut numbers, mut sizes, mut bits) = ([9; 2], [9; 2], [9; 8]);
/// let areas = MergeAreas { numbers: &mut numbers, sizes: &mut sizes, bits: &mut bits };
/// assert_eq!(raw::merge(&tables, areas), 0);
/// assert_eq!((numbers, sizes, bits), ([1, 1], [0, 105], [0, 0, 0, 0, 3, 0, 0, 0]));
/// ```
pub fn merge(tables: &MergeTables<'_>, areas: MergeAreas<'_>) -> u32 {
    // SAFETY: as in `similarity`; the areas are lent to this call alone.
    unsafe {
        sys::gentropi_merge(
            tables.k,
            tables.entries,
            tables.sizes.as_ptr(),
            tables.sizes.len(),
            tables.bits.as_ptr(),
            tables.bits.len(),
            tables.threshold,
            areas.numbers.as_mut_ptr(),
            areas.numbers.len(),
            areas.sizes.as_mut_ptr(),
            areas.sizes.len(),
            areas.bits.as_mut_ptr(),
            areas.bits.len(),
        )
    }
}

/// Options as Chunks takes them: a byte that says which are given, beside numbers.
#[derive(Debug, Clone, Copy, PartialEq, Default)]
pub struct OptionNumbers {
    /// 1 `min_size`, 2 `max_size`, 4 `min_module_size`, 8 `max_module_size`, 16 `min_share_count`,
    /// 32 recursion is given, 64 it is on; summed.
    pub given: u8,
    /// What an item has to reach.
    pub min_size: f64,
    /// What an item should not pass.
    pub max_size: f64,
    /// What a module has to reach.
    pub min_module_size: f64,
    /// What a module must not pass.
    pub max_module_size: f64,
    /// How many entries have to reach a module.
    pub min_share_count: u32,
}

/// The groups of a build, one item for each in every table.
#[derive(Debug, Clone, Copy, PartialEq)]
pub struct GroupTables<'a> {
    /// As [`OptionNumbers::given`], and 128 if the group is entries-aware.
    pub given: &'a [u8],
    /// What an item has to reach.
    pub min_size: &'a [f64],
    /// What an item should not pass.
    pub max_size: &'a [f64],
    /// What a module has to reach.
    pub min_module_size: &'a [f64],
    /// What a module must not pass.
    pub max_module_size: &'a [f64],
    /// How many entries have to reach a module.
    pub min_share_count: &'a [u32],
    /// The tags that a module needs.
    pub tags: &'a [u64],
    /// A higher one goes first.
    pub priority: &'a [u32],
    /// Below it a subgroup seeks another to join.
    pub threshold: &'a [f64],
}

/// What Chunks is handed.
#[derive(Debug, Clone, Copy, PartialEq)]
pub struct ChunksTables<'a> {
    /// How many modules there are.
    pub n: usize,
    /// How many groups there are.
    pub g: usize,
    /// How many entries there are.
    pub e: usize,
    /// How many names there are.
    pub k: usize,
    /// How many dependency records there are.
    pub d: usize,
    /// The flag byte of each module.
    pub flags: &'a [u8],
    /// The size of each module.
    pub sizes: &'a [u64],
    /// The execution order of each module.
    pub orders: &'a [u32],
    /// How many entries reach each module.
    pub shares: &'a [u32],
    /// The tags of each module.
    pub tags: &'a [u64],
    /// The entry bits of each module, four words each.
    pub bits: &'a [u64],
    /// The slice that the ids are parts of.
    pub bytes: &'a [u8],
    /// `n + 1` offsets into it.
    pub offsets: &'a [u32],
    /// The first record of each module, or 0.
    pub first: &'a [u32],
    /// The module that each record names; `d + 1` numbers, of which the first is never read.
    pub dependency: &'a [u32],
    /// The record after each record, or 0; `d + 1` numbers, of which the first is never read.
    pub next: &'a [u32],
    /// The options of the build as a whole.
    pub options: OptionNumbers,
    /// The groups.
    pub groups: GroupTables<'a>,
    /// Group by group one answer for each module: 0 not matched, 1 matched without a name, 2 and
    /// more the name with that number less 2.
    pub answers: &'a [u32],
    /// How many chunks there are already.
    pub on_entry: usize,
}

/// The areas that Chunks writes, and the place of the count.
#[derive(Debug, PartialEq)]
pub struct ChunksAreas<'a> {
    /// The chunk of each module plus 1, or 0.
    pub chunk_of: &'a mut [u32],
    /// The module after each in its chunk plus 1, or 0.
    pub next_of: &'a mut [u32],
    /// The first module of each new chunk plus 1.
    pub first_of: &'a mut [u32],
    /// The group of each new chunk.
    pub group_of: &'a mut [u32],
    /// The name of each new chunk.
    pub name_of: &'a mut [u32],
    /// The size of each new chunk.
    pub size_of: &'a mut [f64],
    /// The entry bits of each new chunk, four words each.
    pub bits_of: &'a mut [u64],
    /// The mark of each new chunk: 0 within its maximum or without one, 1 above it with one module, 2
    /// above it with no cut allowed.
    pub mark_of: &'a mut [u8],
    /// `(p + 32) * n` words, of which all end as zeros; `p` counts the pairs of a group and a name
    /// among the answers.
    pub scratch: &'a mut [u32],
    /// How many new chunks there are.
    pub count: &'a mut usize,
}

/// Chunks of a whole build: writes the first `n` items for modules, as many records as there are
/// new chunks, zeros into all of `scratch`, and the count.
///
/// ```
/// use gentropi::{GroupBuf, Options, raw};
///
/// // One module of 5 bytes, and a group without options that gives it name 0.
/// let groups = GroupBuf::from_iter([gentropi::Group::default()]);
/// let tables = raw::ChunksTables {
///     n: 1,
///     g: 1,
///     e: 1,
///     k: 1,
///     d: 0,
///     flags: &[3],
///     sizes: &[5],
///     orders: &[0],
///     shares: &[1],
///     tags: &[0],
///     bits: &[1, 0, 0, 0],
///     bytes: b"a",
///     offsets: &[0, 1],
///     first: &[0],
///     dependency: &[0],
///     next: &[0],
///     options: Options::default().numbers(),
///     groups: groups.as_tables(),
///     answers: &[2],
///     on_entry: 0,
/// };
/// let (mut chunk_of, mut next_of, mut first_of) = ([9], [9], [9]);
/// let (mut group_of, mut name_of, mut size_of, mut bits_of) = ([9], [9], [9.0], [9; 4]);
/// let (mut mark_of, mut scratch, mut count) = ([9], [9; 33], 9);
/// let areas = raw::ChunksAreas {
///     chunk_of: &mut chunk_of,
///     next_of: &mut next_of,
///     first_of: &mut first_of,
///     group_of: &mut group_of,
///     name_of: &mut name_of,
///     size_of: &mut size_of,
///     bits_of: &mut bits_of,
///     mark_of: &mut mark_of,
///     scratch: &mut scratch,
///     count: &mut count,
/// };
/// assert_eq!(raw::chunks(&tables, areas), 0);
/// assert_eq!((count, chunk_of, next_of, first_of), (1, [1], [0], [1]));
/// assert_eq!((group_of, name_of, size_of, bits_of), ([0], [0], [5.0], [1, 0, 0, 0]));
/// assert_eq!((mark_of, scratch), ([0], [0; 33]));
/// ```
pub fn chunks(tables: &ChunksTables<'_>, areas: ChunksAreas<'_>) -> u32 {
    let ChunksTables { options, groups, .. } = tables;
    // SAFETY: as in `similarity`; the areas are lent to this call alone.
    unsafe {
        sys::gentropi_chunks(
            tables.n,
            tables.g,
            tables.e,
            tables.k,
            tables.d,
            tables.flags.as_ptr(),
            tables.flags.len(),
            tables.sizes.as_ptr(),
            tables.sizes.len(),
            tables.orders.as_ptr(),
            tables.orders.len(),
            tables.shares.as_ptr(),
            tables.shares.len(),
            tables.tags.as_ptr(),
            tables.tags.len(),
            tables.bits.as_ptr(),
            tables.bits.len(),
            tables.bytes.as_ptr(),
            tables.bytes.len(),
            tables.offsets.as_ptr(),
            tables.offsets.len(),
            tables.first.as_ptr(),
            tables.first.len(),
            tables.dependency.as_ptr(),
            tables.dependency.len(),
            tables.next.as_ptr(),
            tables.next.len(),
            options.given,
            options.min_size,
            options.max_size,
            options.min_module_size,
            options.max_module_size,
            options.min_share_count,
            groups.given.as_ptr(),
            groups.given.len(),
            groups.min_size.as_ptr(),
            groups.min_size.len(),
            groups.max_size.as_ptr(),
            groups.max_size.len(),
            groups.min_module_size.as_ptr(),
            groups.min_module_size.len(),
            groups.max_module_size.as_ptr(),
            groups.max_module_size.len(),
            groups.min_share_count.as_ptr(),
            groups.min_share_count.len(),
            groups.tags.as_ptr(),
            groups.tags.len(),
            groups.priority.as_ptr(),
            groups.priority.len(),
            groups.threshold.as_ptr(),
            groups.threshold.len(),
            tables.answers.as_ptr(),
            tables.answers.len(),
            tables.on_entry,
            areas.chunk_of.as_mut_ptr(),
            areas.chunk_of.len(),
            areas.next_of.as_mut_ptr(),
            areas.next_of.len(),
            areas.first_of.as_mut_ptr(),
            areas.first_of.len(),
            areas.group_of.as_mut_ptr(),
            areas.group_of.len(),
            areas.name_of.as_mut_ptr(),
            areas.name_of.len(),
            areas.size_of.as_mut_ptr(),
            areas.size_of.len(),
            areas.bits_of.as_mut_ptr(),
            areas.bits_of.len(),
            areas.mark_of.as_mut_ptr(),
            areas.mark_of.len(),
            areas.scratch.as_mut_ptr(),
            areas.scratch.len(),
            areas.count,
        )
    }
}
