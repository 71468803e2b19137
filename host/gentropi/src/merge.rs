//! Which small subgroups of an entries-aware set join which.

use crate::{Refusal, raw};

/// The entries that something belongs to; entry 0 is the lowest bit of the first word.
pub type EntryBits = [u64; 4];

/// Subgroups before the merge, numbered by their place.
#[derive(Debug, Clone, Copy, PartialEq, Eq)]
pub struct Subgroups<'a> {
    /// How many entries there are.
    pub entries: usize,
    /// The size of each.
    pub sizes: &'a [u64],
    /// The entries of each.
    pub bits: &'a [EntryBits],
}

/// The areas that a merge writes; each needs as many items as there are subgroups.
#[derive(Debug, PartialEq, Eq)]
pub struct MergeAreas<'a> {
    /// The number of the subgroup that each ended in; its own if it is still there.
    pub numbers: &'a mut [u32],
    /// The size of each, 0 for one that vanished.
    pub sizes: &'a mut [u64],
    /// The entries of each, none for one that vanished.
    pub bits: &'a mut [EntryBits],
}

/// Merges subgroups that are smaller than a threshold into others, and writes what came of each.
///
/// While some subgroup has `0 < size < threshold` and another exists, the smallest such, then the
/// lowest number, joins the one that the fewest entries tell it from, then the smallest, then the
/// lowest number. The target's number stays; sizes add and entries unite. A threshold of 0 merges
/// nothing. Items past the subgroups keep their content.
///
/// # Errors
///
/// Refused with 1, 2, 6, 8, 9 or 12. There are as many subgroups as sizes.
///
/// ```
/// use gentropi::{MergeAreas, Subgroups, merge};
///
/// let bits = [[1, 0, 0, 0], [2, 0, 0, 0], [3, 0, 0, 0]];
/// let subgroups = Subgroups { entries: 2, sizes: &[5, 100, 50], bits: &bits };
/// let (mut numbers, mut sizes, mut bits) = ([0; 3], [0; 3], [[0; 4]; 3]);
/// let areas = MergeAreas { numbers: &mut numbers, sizes: &mut sizes, bits: &mut bits };
/// assert_eq!(merge(subgroups, 10.0, areas), Ok(()));
/// assert_eq!((numbers, sizes), ([2, 1, 2], [0, 100, 55]));
/// assert_eq!(bits.map(|words| words[0]), [0, 2, 3]);
/// ```
pub fn merge(
    subgroups: Subgroups<'_>,
    threshold: f64,
    areas: MergeAreas<'_>,
) -> Result<(), Refusal> {
    let Subgroups { entries, sizes, bits } = subgroups;
    let bits = bits.as_flattened();
    let tables = raw::MergeTables { k: sizes.len(), entries, sizes, bits, threshold };
    let MergeAreas { numbers, sizes, bits } = areas;
    let areas = raw::MergeAreas { numbers, sizes, bits: bits.as_flattened_mut() };
    Refusal::check(raw::merge(&tables, areas))
}

/// What came of a subgroup.
#[derive(Debug, Clone, Copy, PartialEq, Eq)]
pub struct Merged {
    /// The number of the subgroup that it ended in; its own if it is still there.
    pub number: u32,
    /// Its size, 0 if it vanished.
    pub size: u64,
    /// Its entries, none if it vanished.
    pub bits: EntryBits,
}

/// As [`merge`], with areas of its own: what came of each subgroup.
///
/// # Errors
///
/// Refused with 1, 2, 6, 8 or 9.
///
/// ```
/// # use gentropi::{Merged, Subgroups, merge_to_vec};
/// let subgroups = Subgroups { entries: 1, sizes: &[10], bits: &[[1, 0, 0, 0]] };
/// let alone = Merged { number: 0, size: 10, bits: [1, 0, 0, 0] };
/// assert_eq!(merge_to_vec(subgroups, 99.0), Ok(vec![alone]));
/// ```
pub fn merge_to_vec(subgroups: Subgroups<'_>, threshold: f64) -> Result<Vec<Merged>, Refusal> {
    let k = subgroups.sizes.len();
    let (mut numbers, mut sizes, mut bits) = (vec![0; k], vec![0; k], vec![[0; 4]; k]);
    let areas = MergeAreas { numbers: &mut numbers, sizes: &mut sizes, bits: &mut bits };
    merge(subgroups, threshold, areas)?;
    let rows = numbers.into_iter().zip(sizes).zip(bits);
    Ok(rows.map(|((number, size), bits)| Merged { number, size, bits }).collect())
}
