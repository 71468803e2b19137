//! What came of each item of the work list, so that a reader can be told why a chunk is what it is.

/// The story of one build.
#[derive(Debug, Clone, Default)]
pub struct Story {
    /// Matched modules that failed a group's filter, as group and module.
    pub filtered: Vec<(usize, usize)>,
    /// The work list at the start.
    pub items: Vec<Planned>,
    /// The items and pieces in the order in which they were taken off.
    pub turns: Vec<Turn>,
}

/// An item of the work list at the start.
#[derive(Debug, Clone)]
pub struct Planned {
    pub group: usize,
    pub name: u32,
    /// Its modules by number.
    pub modules: Vec<usize>,
    /// The module whose id its place among the subgroups of its set goes by.
    pub first: Option<usize>,
}

/// An item, or a piece of one, when its turn came.
#[derive(Debug, Clone)]
pub struct Turn {
    /// The number of the item in the work list at the start.
    pub origin: usize,
    /// The sizes of the modules that it had left, added.
    pub size: u64,
    /// How many modules it had left.
    pub modules: usize,
    /// Whether it is a piece of a cut.
    pub piece: bool,
    pub fate: Fate,
}

/// What came of it.
#[derive(Debug, Clone, Copy, PartialEq, Eq)]
pub enum Fate {
    /// All its modules had left.
    Emptied,
    /// It was strictly below its min_size.
    Dropped,
    /// It was cut; these are the sizes of its two sides.
    Cut { left: u64, right: u64 },
    /// It became the chunk of this number.
    Chunk(u32),
}
