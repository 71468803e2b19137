//! What a chunk is called.

use crate::{EntryBits, Ids, Refusal, needs, raw};

/// A chunk that is to be named, beside the names of its build.
#[derive(Debug, Clone, Copy, PartialEq, Eq)]
pub struct ChunkToName<'a> {
    /// The names that groups give, strictly ascending in byte order; a name's number is its place.
    pub group_names: Ids<'a>,
    /// The name of each entry, empty for an entry without one.
    pub entry_names: Ids<'a>,
    /// The number of the chunk's name among those that groups give.
    pub number: u32,
    /// Whether the chunk comes from an entries-aware group.
    pub entries_aware: bool,
    /// The entries of the chunk.
    pub bits: EntryBits,
    /// Eight bytes below 128 by which the host tells full names apart. They are handed in with every
    /// call, and stand in the name only where it is cut.
    pub hash: &'a [u8],
}

impl<'a> ChunkToName<'a> {
    /// How many bytes the area of [`chunk_name`] needs for this chunk. For a number without a name,
    /// or offsets that fall, it is the least that any chunk needs: those are refused before the area.
    ///
    /// ```
    /// use gentropi::{ChunkToName, IdBuf};
    ///
    /// let (groups, entries) = (IdBuf::from_iter(["g".repeat(120)]), IdBuf::new());
    /// let (group_names, entry_names) = (groups.as_ids(), entries.as_ids());
    /// let (bits, hash) = ([0; 4], b"01234567");
    /// let chunk =
    ///     ChunkToName { group_names, entry_names, number: 0, entries_aware: false, bits, hash };
    /// assert_eq!(chunk.area_bytes(), 120);
    /// ```
    pub fn area_bytes(&self) -> usize {
        let offset = |place: usize| self.group_names.offsets.get(place).map_or(0, |o| *o as usize);
        let number = self.number as usize;
        needs::name_bytes(offset(number.saturating_add(1)).saturating_sub(offset(number)))
    }

    /// The tables of the call; the counts are those that the tables have room for.
    fn tables(&self) -> raw::NameTables<'a> {
        let Self { group_names, entry_names, number, entries_aware, bits, hash } = *self;
        raw::NameTables {
            k: group_names.offsets.len().saturating_sub(1),
            e: entry_names.offsets.len().saturating_sub(1),
            group_names: group_names.bytes,
            group_offsets: group_names.offsets,
            entry_names: entry_names.bytes,
            entry_offsets: entry_names.offsets,
            number,
            entries_aware,
            bits,
            hash,
        }
    }
}

/// Writes a chunk's name to the front of `area`, and answers it.
///
/// The full name of an entries-aware chunk is its group's name, then "~" and the entry's name for
/// each of its entries that has one, in ascending order. It is the name if it has at most 100
/// bytes; else the name is its first 91 bytes, or fewer so that no character is divided, "~" and
/// the hash. Another chunk has its group's name at any length. `area` needs
/// [`ChunkToName::area_bytes`]; bytes past the name keep their content.
///
/// # Errors
///
/// Refused with 1, 2, 3, 10, 12, 14, 15 or 16. There is one name less than offsets.
///
/// ```
/// use gentropi::{ChunkToName, IdBuf, chunk_name};
///
/// let groups = IdBuf::from_iter(["ui", "vendor"]);
/// let entries = IdBuf::from_iter(["shop", "", "guide"]);
/// let chunk = ChunkToName {
///     group_names: groups.as_ids(),
///     entry_names: entries.as_ids(),
///     number: 1,
///     entries_aware: true,
///     bits: [0b111, 0, 0, 0],
///     hash: b"01234567",
/// };
/// let mut area = [b'.'; 100];
/// assert_eq!(chunk_name(&chunk, &mut area), Ok(b"vendor~shop~guide".as_slice()));
/// assert_eq!(area[17..], [b'.'; 83]);
/// ```
pub fn chunk_name<'a>(chunk: &ChunkToName<'_>, area: &'a mut [u8]) -> Result<&'a [u8], Refusal> {
    let mut length = 0;
    Refusal::check(raw::name(&chunk.tables(), area, &mut length))?;
    Ok(&area[..length])
}

/// As [`chunk_name`], with an area of its own: the name alone.
///
/// # Errors
///
/// Refused with 1, 2, 3, 10, 14, 15 or 16.
///
/// ```
/// use gentropi::{ChunkToName, IdBuf, Refusal, chunk_name_to_vec};
///
/// let (groups, entries) = (IdBuf::from_iter(["ui"]), IdBuf::from_iter(["e".repeat(97)]));
/// let chunk = ChunkToName {
///     group_names: groups.as_ids(),
///     entry_names: entries.as_ids(),
///     number: 0,
///     entries_aware: true,
///     bits: [1, 0, 0, 0],
///     hash: b"01234567",
/// };
/// assert_eq!(chunk_name_to_vec(&chunk).map(|name| name.len()), Ok(100));
/// let longer = IdBuf::from_iter(["e".repeat(98)]);
/// let cut = chunk_name_to_vec(&ChunkToName { entry_names: longer.as_ids(), ..chunk });
/// assert_eq!(cut, Ok(format!("ui~{}~01234567", "e".repeat(88)).into_bytes()));
/// let number = ChunkToName { number: 1, ..chunk };
/// assert_eq!(chunk_name_to_vec(&number), Err(Refusal::NUMBER));
/// ```
pub fn chunk_name_to_vec(chunk: &ChunkToName<'_>) -> Result<Vec<u8>, Refusal> {
    let mut area = vec![0; chunk.area_bytes()];
    let length = chunk_name(chunk, &mut area)?.len();
    area.truncate(length);
    Ok(area)
}
