//! What happened while a chunk list was made, so that a run can say which kinds of build it saw.

/// Something that happened.
#[derive(Debug, Clone, Copy, PartialEq, Eq, PartialOrd, Ord)]
pub enum Event {
    /// A capture took a module that isn't its start.
    Captured,
    /// A matched module failed the filter.
    Filtered,
    /// An entries-aware set was divided into several subgroups.
    Divided,
    /// A subgroup joined another.
    Joined,
    /// Subgroups of one set are taken in another order than that of their numbers.
    OutOfNumbers,
    /// The smallest id of a subgroup came with one that joined it.
    JoinedFirst,
    /// The smallest id of an entries-aware item had left it when its turn came.
    FirstLeft,
    /// An item was empty when its turn came.
    Emptied,
    /// An item was below its min_size.
    Dropped,
    /// An item was at its min_size exactly.
    AtMinSize,
    /// An item was at its max_size exactly.
    AtMaxSize,
    /// An item was above its max_size and was cut.
    Cut,
    /// An item was above its max_size and no cut was allowed.
    Uncuttable,
    /// A piece of a cut was cut again.
    CutAgain,
    /// A piece of a cut became a chunk above its max_size.
    PieceAbove,
    /// A chunk's mark isn't the one that its item had before modules left.
    MarkChanged,
    /// Modules left an item that stayed.
    Narrowed,
    /// A chunk holds entries that none of its modules has.
    WiderBits,
}

/// The events of one build, and from which starting item each chunk came.
#[derive(Debug, Clone, Default)]
pub struct Trace {
    pub events: Vec<Event>,
    /// For each chunk, the number of its item in the work list at the start.
    pub origin: Vec<usize>,
}
