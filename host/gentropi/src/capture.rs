//! What a module captures along its dependencies.

use crate::{Refusal, raw};

/// The flags of a module, summed in its flag byte. A module is eligible when it is normal and
/// included and not assigned.
pub mod flag {
    /// A normal module.
    pub const NORMAL: u8 = 1;
    /// Included in the build.
    pub const INCLUDED: u8 = 2;
    /// Already assigned to a chunk.
    pub const ASSIGNED: u8 = 4;
    /// Normal, included and not assigned.
    pub const ELIGIBLE: u8 = NORMAL | INCLUDED;
}

/// Modules and their dependency records.
///
/// Records are numbered from 1: record 0 is never read, but stands in both tables. A module's
/// chain begins with its first record and goes on by `next`; 0 ends it. [`Chains`] makes the tables.
#[derive(Debug, Clone, Copy, PartialEq, Eq)]
pub struct Modules<'a> {
    /// The flag byte of each module (see [`flag`]).
    pub flags: &'a [u8],
    /// The first record of each module, or 0.
    pub first: &'a [u32],
    /// The module that each record names.
    pub dependency: &'a [u32],
    /// The record after each record, or 0.
    pub next: &'a [u32],
}

impl<'a> Modules<'a> {
    /// The tables of a capture; the counts are those that the tables have room for.
    fn tables(self, start: u32, recursive: bool) -> raw::CaptureTables<'a> {
        let Self { flags, first, dependency, next } = self;
        let (n, d) = (flags.len(), next.len().saturating_sub(1));
        raw::CaptureTables { n, d, recursive, start, flags, first, dependency, next }
    }
}

/// Writes a mark for each module: 1 if the module `start` captures it, else 0.
///
/// Captured are the eligible modules that are reached from the start through eligible modules
/// only; without `recursive` the start alone; nothing if the start isn't eligible. `marks` and
/// `scratch` need as many entries as there are modules. Marks past them keep their content, and
/// all of `scratch` ends as zeros.
///
/// # Errors
///
/// Refused with 1, 2, 7, 9, 10, 12 or 13. There are as many modules as flag bytes.
///
/// ```
/// use gentropi::{Chains, capture, flag::ELIGIBLE};
///
/// // 0 depends on 1, and 1 on 2.
/// let chains = Chains::from_lists([vec![1], vec![2], vec![]]);
/// let modules = chains.modules(&[ELIGIBLE; 3]);
/// let (mut marks, mut scratch) = ([9; 4], [9; 3]);
/// assert_eq!(capture(modules, 1, true, &mut marks, &mut scratch), Ok(()));
/// assert_eq!((marks, scratch), ([0, 1, 1, 9], [0; 3]));
/// ```
pub fn capture(
    modules: Modules<'_>,
    start: u32,
    recursive: bool,
    marks: &mut [u8],
    scratch: &mut [u32],
) -> Result<(), Refusal> {
    Refusal::check(raw::capture(&modules.tables(start, recursive), marks, scratch))
}

/// As [`capture`], with areas of its own: a mark for each module.
///
/// # Errors
///
/// Refused with 1, 2, 7, 9 or 10.
///
/// ```
/// # use gentropi::{Chains, capture_to_vec, flag};
/// let chains = Chains::from_lists([vec![1], vec![]]);
/// let modules = chains.modules(&[flag::ELIGIBLE; 2]);
/// assert_eq!(capture_to_vec(modules, 0, true), Ok(vec![1, 1]));
/// assert_eq!(capture_to_vec(modules, 0, false), Ok(vec![1, 0]));
/// ```
pub fn capture_to_vec(
    modules: Modules<'_>,
    start: u32,
    recursive: bool,
) -> Result<Vec<u8>, Refusal> {
    let mut marks = vec![0; modules.flags.len()];
    let mut scratch = vec![0; modules.flags.len()];
    capture(modules, start, recursive, &mut marks, &mut scratch)?;
    Ok(marks)
}

/// The tables of dependency records, made from lists.
#[derive(Debug, Clone, PartialEq, Eq)]
pub struct Chains {
    first: Vec<u32>,
    dependency: Vec<u32>,
    next: Vec<u32>,
}

impl Chains {
    /// One list for each module, of the modules that it depends on.
    ///
    /// ```
    /// let chains = gentropi::Chains::from_lists([vec![1, 2], vec![], vec![1]]);
    /// let modules = chains.modules(&[3, 3, 3]);
    /// assert_eq!(modules.first, [1, 0, 3]);
    /// assert_eq!(modules.dependency[1..], [1, 2, 1]);
    /// assert_eq!(modules.next[1..], [2, 0, 0]);
    /// ```
    pub fn from_lists<L: IntoIterator<Item = u32>>(lists: impl IntoIterator<Item = L>) -> Self {
        let mut chains = Self { first: Vec::new(), dependency: vec![0], next: vec![0] };
        lists.into_iter().for_each(|list| chains.push(list));
        chains
    }

    /// Adds the list of one more module.
    ///
    /// ```
    /// let mut chains = gentropi::Chains::from_lists([vec![1]]);
    /// chains.push([0]);
    /// assert_eq!(chains.modules(&[3, 3]).first, [1, 2]);
    /// ```
    pub fn push(&mut self, dependencies: impl IntoIterator<Item = u32>) {
        let mut last = None;
        for module in dependencies {
            let record = self.dependency.len();
            // More records than a u32 can number are more than the limit, and refused for that.
            let number = u32::try_from(record).unwrap_or(u32::MAX);
            match last {
                None => self.first.push(number),
                Some(last) => self.next[last] = number,
            }
            self.dependency.push(module);
            self.next.push(0);
            last = Some(record);
        }
        if last.is_none() {
            self.first.push(0);
        }
    }

    /// The tables beside the modules' flag bytes, to hand over.
    ///
    /// ```
    /// let chains = gentropi::Chains::from_lists([vec![1], vec![]]);
    /// assert_eq!(chains.modules(&[3, 7]).flags, [3, 7]);
    /// ```
    pub fn modules<'a>(&'a self, flags: &'a [u8]) -> Modules<'a> {
        Modules { flags, first: &self.first, dependency: &self.dependency, next: &self.next }
    }
}
