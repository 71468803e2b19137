//! The options of a build and of its groups.

use crate::raw;

/// The options that a group shares with the build as a whole; a group's own goes first.
#[derive(Debug, Clone, Copy, PartialEq, Default)]
pub struct Options {
    /// What an item has to reach, else it is dropped.
    pub min_size: Option<f64>,
    /// What an item should not pass, else it is cut.
    pub max_size: Option<f64>,
    /// What a module has to reach.
    pub min_module_size: Option<f64>,
    /// What a module must not pass.
    pub max_module_size: Option<f64>,
    /// How many entries have to reach a module.
    pub min_share_count: Option<u32>,
    /// Whether dependencies are captured too; they are if nobody says.
    pub recursive: Option<bool>,
}

impl Options {
    /// As the library takes them.
    ///
    /// ```
    /// let options = gentropi::Options { min_size: Some(5.0), ..Default::default() };
    /// assert_eq!((options.numbers().given, options.numbers().min_size), (1, 5.0));
    /// ```
    pub fn numbers(&self) -> raw::OptionNumbers {
        let given = [
            self.min_size.is_some(),
            self.max_size.is_some(),
            self.min_module_size.is_some(),
            self.max_module_size.is_some(),
            self.min_share_count.is_some(),
            self.recursive.is_some(),
            self.recursive == Some(true),
        ];
        let bit = |(place, given): (usize, bool)| u8::from(given) << place;
        raw::OptionNumbers {
            given: given.into_iter().enumerate().map(bit).sum(),
            min_size: self.min_size.unwrap_or_default(),
            max_size: self.max_size.unwrap_or_default(),
            min_module_size: self.min_module_size.unwrap_or_default(),
            max_module_size: self.max_module_size.unwrap_or_default(),
            min_share_count: self.min_share_count.unwrap_or_default(),
        }
    }
}

/// A group.
#[derive(Debug, Clone, Copy, PartialEq, Default)]
pub struct Group {
    /// Its own options.
    pub options: Options,
    /// The tags that a module needs.
    pub tags: u64,
    /// A higher one goes first.
    pub priority: u32,
    /// Whether its sets are divided by entries.
    pub entries_aware: bool,
    /// Below it a subgroup seeks another to join.
    pub threshold: f64,
}

/// The bit of a group's byte that says entries-aware.
const ENTRIES_AWARE: u8 = 128;

/// Groups in tables of its own.
///
/// ```
/// use gentropi::{Group, GroupBuf, Options};
///
/// let options = Options { max_size: Some(9.0), recursive: Some(true), ..Options::default() };
/// let groups = GroupBuf::from_iter([Group { options, entries_aware: true, ..Group::default() }]);
/// assert_eq!(groups.as_tables().given, [2 + 32 + 64 + 128]);
/// assert_eq!(groups.as_tables().max_size, [9.0]);
/// ```
///
/// Each table may be changed by itself: the library tests their lengths.
#[derive(Debug, Clone, PartialEq, Default)]
pub struct GroupBuf {
    /// What each group has: a byte that sums 1 `min_size`, 2 `max_size`, 4 `min_module_size`,
    /// 8 `max_module_size`, 16 `min_share_count`, 32 recursion is given, 64 it is on, 128 it is
    /// entries-aware. What isn't given is not read.
    pub given: Vec<u8>,
    /// See [`Options::min_size`].
    pub min_size: Vec<f64>,
    /// See [`Options::max_size`].
    pub max_size: Vec<f64>,
    /// See [`Options::min_module_size`].
    pub min_module_size: Vec<f64>,
    /// See [`Options::max_module_size`].
    pub max_module_size: Vec<f64>,
    /// See [`Options::min_share_count`].
    pub min_share_count: Vec<u32>,
    /// See [`Group::tags`].
    pub tags: Vec<u64>,
    /// See [`Group::priority`].
    pub priority: Vec<u32>,
    /// See [`Group::threshold`].
    pub threshold: Vec<f64>,
}

impl GroupBuf {
    /// Adds a group after the others.
    ///
    /// ```
    /// let mut groups = gentropi::GroupBuf::default();
    /// groups.push(gentropi::Group { priority: 7, ..Default::default() });
    /// assert_eq!(groups.priority, [7]);
    /// ```
    pub fn push(&mut self, group: Group) {
        let numbers = group.options.numbers();
        self.given.push(numbers.given | if group.entries_aware { ENTRIES_AWARE } else { 0 });
        self.min_size.push(numbers.min_size);
        self.max_size.push(numbers.max_size);
        self.min_module_size.push(numbers.min_module_size);
        self.max_module_size.push(numbers.max_module_size);
        self.min_share_count.push(numbers.min_share_count);
        self.tags.push(group.tags);
        self.priority.push(group.priority);
        self.threshold.push(group.threshold);
    }

    /// The tables, to hand over.
    ///
    /// ```
    /// let groups = gentropi::GroupBuf::from_iter([gentropi::Group::default()]);
    /// assert_eq!(groups.as_tables().given, [0]);
    /// ```
    pub fn as_tables(&self) -> raw::GroupTables<'_> {
        raw::GroupTables {
            given: &self.given,
            min_size: &self.min_size,
            max_size: &self.max_size,
            min_module_size: &self.min_module_size,
            max_module_size: &self.max_module_size,
            min_share_count: &self.min_share_count,
            tags: &self.tags,
            priority: &self.priority,
            threshold: &self.threshold,
        }
    }
}

impl FromIterator<Group> for GroupBuf {
    fn from_iter<I: IntoIterator<Item = Group>>(groups: I) -> Self {
        let mut buf = Self::default();
        groups.into_iter().for_each(|group| buf.push(group));
        buf
    }
}
