//! Name of a chunk, one to one.

use crate::{EntryBits, sys};

/// What Name is handed.
#[derive(Debug, Clone, Copy, PartialEq, Eq)]
pub struct NameTables<'a> {
    /// How many names of groups there are.
    pub k: usize,
    /// How many entries there are.
    pub e: usize,
    /// The slice that the names of groups are parts of.
    pub group_names: &'a [u8],
    /// `k + 1` offsets into it.
    pub group_offsets: &'a [u32],
    /// The slice that the names of entries are parts of.
    pub entry_names: &'a [u8],
    /// `e + 1` offsets into it.
    pub entry_offsets: &'a [u32],
    /// The number of the chunk's name.
    pub number: u32,
    /// Whether the chunk comes from an entries-aware group.
    pub entries_aware: bool,
    /// The entries of the chunk.
    pub bits: EntryBits,
    /// The hash of the full name.
    pub hash: &'a [u8],
}

/// Name of a chunk: writes it to the front of `name`, and its length.
///
/// ```
/// use gentropi::raw::{self, NameTables};
///
/// let tables = NameTables {
///     k: 1,
///     e: 2,
///     group_names: b"ui",
///     group_offsets: &[0, 2],
///     entry_names: b"ab",
///     entry_offsets: &[0, 1, 2],
///     number: 0,
///     entries_aware: true,
///     bits: [0b10, 0, 0, 0],
///     hash: b"01234567",
/// };
/// let (mut name, mut length) = ([b'.'; 100], 9);
/// // An area that is too short is refused, and the length stays as it is.
/// assert_eq!((raw::name(&tables, &mut name[..99], &mut length), length), (12, 9));
/// assert_eq!((raw::name(&tables, &mut name, &mut length), length), (0, 4));
/// assert_eq!(name[..6], *b"ui~b..");
/// ```
pub fn name(tables: &NameTables<'_>, name: &mut [u8], length: &mut usize) -> u32 {
    let [word0, word1, word2, word3] = tables.bits;
    // SAFETY: every pointer is that of a live slice with its length, or of a live place; the area and the
    // place are lent to this call alone. The library is proved to stay within them for every content.
    unsafe {
        sys::gentropi_name(
            tables.k,
            tables.e,
            tables.group_names.as_ptr(),
            tables.group_names.len(),
            tables.group_offsets.as_ptr(),
            tables.group_offsets.len(),
            tables.entry_names.as_ptr(),
            tables.entry_names.len(),
            tables.entry_offsets.as_ptr(),
            tables.entry_offsets.len(),
            tables.number,
            tables.entries_aware,
            word0,
            word1,
            word2,
            word3,
            tables.hash.as_ptr(),
            tables.hash.len(),
            name.as_mut_ptr(),
            name.len(),
            length,
        )
    }
}
