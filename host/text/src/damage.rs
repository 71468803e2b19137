//! How a case is damaged on purpose before it is handed in.

/// The tables that a length can be forced on.
#[derive(Debug, Clone, Copy, PartialEq, Eq)]
pub enum Table {
    Flags,
    Sizes,
    Orders,
    Shares,
    Tags,
    /// Counted in words, four for each module or subgroup.
    Bits,
    Offsets,
    First,
    DepModule,
    DepNext,
    /// All tables of groups.
    Groups,
    /// Which options a group has, and whether it is entries-aware.
    Given,
    MinSize,
    MaxSize,
    MinModuleSize,
    MaxModuleSize,
    MinShareCount,
    Mask,
    Priority,
    Threshold,
    Answers,
    /// The offsets of the names of groups.
    NameOffsets,
    /// The offsets of the names of entries.
    EntryOffsets,
}

impl Table {
    /// The tables of builds and of the calls within them, with their words, those of groups as one.
    pub const ALL: [(Self, &'static str); 12] = [
        (Self::Flags, "flags"),
        (Self::Sizes, "sizes"),
        (Self::Orders, "orders"),
        (Self::Shares, "shares"),
        (Self::Tags, "tags"),
        (Self::Bits, "bits"),
        (Self::Offsets, "offsets"),
        (Self::First, "first"),
        (Self::DepModule, "dep_module"),
        (Self::DepNext, "dep_next"),
        (Self::Groups, "groups"),
        (Self::Answers, "answers"),
    ];

    /// The tables of groups with their words, in the order of the call.
    pub const OF_GROUPS: [(Self, &'static str); 9] = [
        (Self::Given, "given"),
        (Self::MinSize, "min_size"),
        (Self::MaxSize, "max_size"),
        (Self::MinModuleSize, "min_module_size"),
        (Self::MaxModuleSize, "max_module_size"),
        (Self::MinShareCount, "min_share_count"),
        (Self::Mask, "mask"),
        (Self::Priority, "priority"),
        (Self::Threshold, "threshold"),
    ];

    /// The tables of a name call with their words.
    pub const OF_NAMES: [(Self, &'static str); 2] =
        [(Self::NameOffsets, "name_offsets"), (Self::EntryOffsets, "entry_offsets")];

    /// The word that stands for it in a text.
    pub fn word(self) -> &'static str {
        Self::named().find(|(table, _)| *table == self).map_or("", |(_, word)| word)
    }

    /// Every table that a text can name, with its word.
    pub fn named() -> impl Iterator<Item = (Self, &'static str)> {
        Self::of_builds().chain(Self::OF_NAMES)
    }

    /// The tables that a whole build has.
    pub fn of_builds() -> impl Iterator<Item = (Self, &'static str)> {
        Self::ALL.into_iter().chain(Self::OF_GROUPS)
    }
}

/// The counts that a value can be forced on.
#[derive(Debug, Clone, Copy, PartialEq, Eq)]
pub enum Count {
    /// Modules.
    N,
    /// Groups.
    G,
    /// Entries.
    E,
    /// Names; of a merge, subgroups.
    K,
    /// Dependency records.
    D,
}

impl Count {
    /// All counts with their letters.
    pub const ALL: [(Self, &'static str); 5] =
        [(Self::N, "n"), (Self::G, "g"), (Self::E, "e"), (Self::K, "k"), (Self::D, "d")];

    /// The letter that stands for it in a text.
    pub fn word(self) -> &'static str {
        Self::ALL.into_iter().find(|(count, _)| *count == self).map_or("", |(_, word)| word)
    }
}

/// What is changed, in this order: offsets, lengths of tables, counts, lengths of areas.
#[derive(Debug, Clone, PartialEq, Eq, Default)]
pub struct Damage {
    /// Other id offsets.
    pub offsets: Option<Vec<u32>>,
    /// Other offsets of the names of groups.
    pub name_offsets: Option<Vec<u32>>,
    /// Other offsets of the names of entries.
    pub entry_offsets: Option<Vec<u32>>,
    /// Tables that are cut, or lengthened with zeros.
    pub lengths: Vec<(Table, usize)>,
    /// Counts that are changed while the tables stay.
    pub counts: Vec<(Count, u64)>,
    /// Lengths of the lent areas in the order of the call; without them there is room to spare.
    pub areas: Option<Vec<usize>>,
    /// Lengths of the areas of chunk records, where those of a build are told apart: first module,
    /// group, name, size, bits in words, and mark.
    pub records: Option<Vec<usize>>,
}

impl Damage {
    /// Whether nothing is changed.
    pub fn is_none(&self) -> bool {
        *self == Self::default()
    }

    /// The value of a count: the forced one, or the one that stands in the text.
    pub fn count(&self, which: Count, written: u64) -> u64 {
        let forced = self.counts.iter().rev().find(|(count, _)| *count == which);
        forced.map_or(written, |(_, value)| *value)
    }

    /// The length of a table: the forced one, or the one that it has.
    pub fn length(&self, which: Table, written: usize) -> usize {
        let forced = self.lengths.iter().rev().find(|(table, _)| *table == which);
        forced.map_or(written, |(_, length)| *length)
    }

    /// Forces the length of one table, if it is damaged.
    pub fn fit<T: Clone + Default>(&self, which: Table, items: &mut Vec<T>) {
        for (_, length) in self.lengths.iter().filter(|(table, _)| *table == which) {
            items.resize(*length, T::default());
        }
    }
}
