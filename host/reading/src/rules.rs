//! Deliberate faults of the reading of whole builds: each is one switch at the place concerned, and
//! all are off by default. The recorded cases are held against them, since no theorem can notice a
//! definition that is wrong throughout.

use text::{Count, Group, Options, Table};

use self::ReadingFault as F;

/// One thing that the reading gets wrong on purpose.
#[derive(Debug, Clone, Copy, PartialEq, Eq)]
pub enum ReadingFault {
    /// 1: a limit is one too high, or one too low.
    LimitHigher(Count),
    LimitLower(Count),
    /// 2: such lengths of a table are accepted.
    Length(Table, Lengths),
    /// 3: an id of 1,025 bytes is accepted; one of 1,024 is refused.
    IdLonger,
    IdShorter,
    /// 3: an offset that falls, or passes the end, is accepted.
    OffsetFalls,
    OffsetPastEnd,
    /// 3: ids that leave out the first bytes, or the last ones, are refused.
    OffsetsFromZero,
    OffsetsToEnd,
    /// 4, 5, 6: over the eligible modules, or over all, instead of the normal included ones.
    PartEligible(u32),
    PartAll(u32),
    /// 6: a total of 2^53 + 1 is accepted; one of 2^53 is refused.
    TotalHigher,
    TotalLower,
    /// 7: first records, nexts or modules of records aren't tested; a module N is accepted.
    FirstUntested,
    NextUntested,
    RecordModuleUntested,
    RecordModuleAtLimit,
    /// 7: record 0 is tested; records on no chain aren't; only eligible modules' first records are.
    RecordZeroTested,
    OffChainUntested,
    FirstIfEligible,
    /// 7: chains aren't tested; only eligible modules' are; a chain of D records is refused.
    ChainUntested,
    ChainIfEligible,
    ChainLower,
    /// 8: an option isn't tested.
    NanUntested(Level, Setting),
    /// 8: a threshold is tested in entries-aware groups only.
    NanThresholdIfAware,
    /// 8: the last group isn't tested, or it is the only one that is.
    NanNotInLastGroup,
    NanOnlyInLastGroup,
    /// 8: an absent option counts as a NaN.
    NanAbsent(Level, Setting),
    /// 9: no flag byte is tested; 8 is accepted; 7 is refused.
    FlagsUntested,
    FlagsEightAccepted,
    FlagsSevenRefused,
    /// 9: the bit at E is accepted; a word isn't tested.
    BitAtLimit,
    BitsUntested(usize),
    /// 9: the bit at E is accepted if it is the first of a word.
    BitAtWord(usize),
    /// 10: K+2 is accepted; K+1 is refused.
    AnswerHigher,
    AnswerLower,
    /// 10: only one group's answers are tested.
    AnswersOfFirstGroup,
    AnswersOfLastGroup,
    /// 11: 65,536 is accepted; 65,535 is refused.
    EntryCountHigher,
    EntryCountLower,
    /// 12 and 13: an area that is one short is accepted; `ShortRecords` is of all areas of records,
    /// `ShortMarkOf` of that of marks alone.
    ShortChunkOf,
    ShortNextOf,
    ShortRecords,
    ShortMarkOf,
    ShortScratch,
    /// 13: P over eligible modules; over answers of 1 too; over modules that pass the filter.
    PairsEligible,
    PairsUnnamed,
    PairsFiltered,
    /// 13: P counts names of different groups once; every answer by itself.
    PairsByName,
    PairsRepeated,
    /// 13: 31×N or 33×N.
    Words31,
    Words33,
    /// Two neighbouring conditions have each other's numbers, or are tested in the other order.
    NumbersExchanged(u32),
    OrderExchanged(u32),
    /// Answers are read module by module.
    AnswersByModule,
    /// A setting is read from another one's place.
    WrongSlot(Level, Setting, Setting),
    /// A setting is passed over.
    Ignored(Level, Setting),
    /// The global option overrides the group's.
    GlobalFirst(Setting),
    /// An absent setting counts as another value.
    Default(Setting),
    /// One tag of the mask is enough; a mask of zero lets nothing pass.
    AnyTag,
    EmptyMaskPassesNone,
    /// An entry word is passed over where entry bits are compared or united.
    WordIgnored(Use, usize),
    /// The subgroups of one (group, name) follow one another by something else.
    SubgroupsBy(Tie),
    /// The pieces of a cut stand among the other subgroups by their ids, or behind all of them.
    PiecesById,
    PiecesLast,
    /// An item below min_size that is above max_size isn't dropped.
    CutBeforeDropped,
    /// An item at min_size is dropped; one at max_size is cut.
    AtMinSizeDropped,
    AtMaxSizeCut,
    /// A chunk's mark is worked out otherwise.
    Marks(Marking),
    /// Why a cut has no answer is told otherwise.
    Nones(Telling),
    /// An area is written one entry past its end, or by a refused call.
    PastEnd(Area),
    RefusedWrites(Area),
    /// The first new chunk's record stands at the count on entry.
    RecordsByNumber,
    /// Scratch past its need isn't zeroed.
    ScratchKept,
}

/// Lengths of a table that differ from the one that its counts imply.
#[derive(Debug, Clone, Copy, PartialEq, Eq)]
pub enum Lengths {
    Shorter,
    Longer,
    Any,
}

/// Where a setting is given.
#[derive(Debug, Clone, Copy, PartialEq, Eq)]
pub enum Level {
    Global,
    Group,
}

/// A setting; the first six are options of the build as a whole too.
#[derive(Debug, Clone, Copy, PartialEq, Eq)]
pub enum Setting {
    MinSize,
    MaxSize,
    MinModuleSize,
    MaxModuleSize,
    MinShareCount,
    Recursive,
    Threshold,
    Priority,
    EntriesAware,
    Mask,
}

/// What entry bits are used for.
#[derive(Debug, Clone, Copy, PartialEq, Eq)]
pub enum Use {
    /// Step 2: whether two modules have equal bits.
    Equality,
    /// Merge: the bits of the joined subgroup, and the entries held by exactly one.
    Joined,
    Distance,
    /// Step 5: the bits of a chunk.
    Union,
}

/// What subgroups follow one another by, in place of the smallest id held when they were finished.
#[derive(Debug, Clone, Copy, PartialEq, Eq)]
pub enum Tie {
    /// The lower number in the merge.
    Number,
    /// The first module in execution order, or by load number.
    Execution,
    LoadNumber,
    /// The largest id.
    LargestId,
    /// The smallest id that it held before others joined it.
    BeforeMerging,
    /// The smallest id that is left when its turn comes.
    LeftAtTurn,
    /// The smallest id, of which a shorter one is the smaller.
    ShorterId,
    /// The smallest id, from the last one down.
    Backwards,
}

impl Tie {
    pub const ALL: [Self; 8] = [
        Self::Number,
        Self::Execution,
        Self::LoadNumber,
        Self::LargestId,
        Self::BeforeMerging,
        Self::LeftAtTurn,
        Self::ShorterId,
        Self::Backwards,
    ];
}

/// How the mark of a chunk is got wrong.
#[derive(Debug, Clone, Copy, PartialEq, Eq)]
pub enum Marking {
    /// 1 and 2 stand for each other; one of them stands for both.
    Exchanged,
    AlwaysOne,
    AlwaysTwo,
    /// A chunk at its maximum is marked.
    AtMaximum,
    /// A limit is read otherwise than where items are cut.
    GlobalFirst(Setting),
    Ignored(Level, Setting),
    Default(Setting),
    /// Any cut is allowed; one side that reaches the minimum is enough.
    AnyCut,
    OneSideEnough,
    /// Cuts are of the modules in execution order, or by load number.
    InExecutionOrder,
    ByLoadNumber,
    /// It is that of the item before modules left, or only the size is.
    BeforeLeaving,
    SizeBeforeLeaving,
    /// A piece's is that of what was cut, or only the size is.
    BeforeCut,
    SizeBeforeCut,
}

impl Marking {
    /// Those that make a difference. Where no minimum is given each cut is allowed, so that an absent
    /// one which counts as another has none.
    pub const ALL: [Self; 19] = [
        Self::Exchanged,
        Self::AlwaysOne,
        Self::AlwaysTwo,
        Self::AtMaximum,
        Self::GlobalFirst(Setting::MaxSize),
        Self::GlobalFirst(Setting::MinSize),
        Self::Ignored(Level::Global, Setting::MaxSize),
        Self::Ignored(Level::Global, Setting::MinSize),
        Self::Ignored(Level::Group, Setting::MaxSize),
        Self::Ignored(Level::Group, Setting::MinSize),
        Self::Default(Setting::MaxSize),
        Self::AnyCut,
        Self::OneSideEnough,
        Self::InExecutionOrder,
        Self::ByLoadNumber,
        Self::BeforeLeaving,
        Self::SizeBeforeLeaving,
        Self::BeforeCut,
        Self::SizeBeforeCut,
    ];
}

/// How it is told wrong why there is no cut.
#[derive(Debug, Clone, Copy, PartialEq, Eq)]
pub enum Telling {
    /// Each stands for the other; one of them stands for both.
    Exchanged,
    AlwaysFewer,
    NeverFewer,
    /// One module isn't fewer than two, or two are.
    FewerThanOne,
    FewerThanThree,
    /// Too few modules are told only where these reach the minimum.
    FewerAtMinimum,
}

impl Telling {
    pub const ALL: [Self; 6] = [
        Self::Exchanged,
        Self::AlwaysFewer,
        Self::NeverFewer,
        Self::FewerThanOne,
        Self::FewerThanThree,
        Self::FewerAtMinimum,
    ];
}

/// A lent area. The six of the chunk records are `First` to `Mark`.
#[derive(Debug, Clone, Copy, PartialEq, Eq)]
pub enum Area {
    ChunkOf,
    NextOf,
    First,
    Group,
    Name,
    Size,
    Bits,
    Mark,
    Scratch,
}

impl Area {
    pub const ALL: [Self; 9] = [
        Self::ChunkOf,
        Self::NextOf,
        Self::First,
        Self::Group,
        Self::Name,
        Self::Size,
        Self::Bits,
        Self::Mark,
        Self::Scratch,
    ];
}

/// The rules that the reading goes by.
#[derive(Debug, Clone, Copy, PartialEq, Eq)]
pub struct Rules {
    fault: Option<ReadingFault>,
}

/// The rules of the papers.
pub const SOUND: Rules = Rules { fault: None };

impl Rules {
    /// The papers' rules but for one fault.
    pub fn with(fault: ReadingFault) -> Self {
        Self { fault: Some(fault) }
    }

    /// Whether the reading has this fault.
    pub fn has(self, fault: ReadingFault) -> bool {
        self.fault == Some(fault)
    }

    /// The limit of a count.
    pub fn limit(self, which: Count, limit: u64) -> u64 {
        limit + u64::from(self.has(F::LimitHigher(which)))
            - u64::from(self.has(F::LimitLower(which)))
    }

    /// Whether a table's length isn't the wanted one.
    pub fn length_differs(self, table: Table, length: usize, wanted: u64) -> bool {
        let (shorter, longer) = ((length as u64) < wanted, length as u64 > wanted);
        match self.fault {
            Some(F::Length(fault, Lengths::Shorter)) if fault == table => longer,
            Some(F::Length(fault, Lengths::Longer)) if fault == table => shorter,
            Some(F::Length(fault, Lengths::Any)) if fault == table => false,
            _ => shorter || longer,
        }
    }

    /// The number under which a condition is reported.
    pub fn number(self, number: u32) -> u32 {
        match self.fault {
            Some(F::NumbersExchanged(lower)) if number == lower => lower + 1,
            Some(F::NumbersExchanged(lower)) if number == lower + 1 => lower,
            _ => number,
        }
    }

    /// The lower number of two conditions that are tested in the other order.
    pub fn exchanged(self) -> Option<u32> {
        if let Some(F::OrderExchanged(lower)) = self.fault { Some(lower) } else { None }
    }

    /// Whether 4, 5 and 6 look at a module with these flags.
    pub fn takes_part(self, number: u32, flags: u8) -> bool {
        self.has(F::PartAll(number))
            || flags & 3 == 3 && !(self.has(F::PartEligible(number)) && flags & 4 != 0)
    }

    /// Whether 8 applies to an option.
    pub fn is_nan(self, level: Level, setting: Setting, value: Option<f64>) -> bool {
        let counted = self.has(F::NanAbsent(level, setting)) && value.is_none();
        let untested = self.has(F::NanUntested(level, setting));
        counted || !untested && value.is_some_and(f64::is_nan)
    }

    /// A limit or threshold in force.
    pub fn double(self, setting: Setting, group: &Group, global: &Options) -> Option<f64> {
        let own = match self.slot(Level::Group, setting) {
            Setting::Threshold => group.threshold,
            other => double(other, &group.options),
        };
        self.in_force(setting, own, double(self.slot(Level::Global, setting), global))
    }

    /// A least share count or a priority in force.
    pub fn count(self, setting: Setting, group: &Group, global: &Options) -> Option<u32> {
        let own = match self.slot(Level::Group, setting) {
            Setting::Priority => group.priority,
            _ => group.options.min_share_count,
        };
        let shared = (setting == Setting::MinShareCount).then_some(global.min_share_count);
        self.in_force(setting, own, shared.flatten())
    }

    /// A yes or no in force.
    pub fn yes(self, setting: Setting, group: &Group, global: &Options) -> Option<bool> {
        let own = match self.slot(Level::Group, setting) {
            Setting::EntriesAware => group.entries_aware,
            _ => group.options.recursive,
        };
        let shared = (setting == Setting::Recursive).then_some(global.recursive);
        self.in_force(setting, own, shared.flatten())
    }

    /// The place that a setting is read from.
    fn slot(self, level: Level, setting: Setting) -> Setting {
        match self.fault {
            Some(F::WrongSlot(at, wanted, read)) if (at, wanted) == (level, setting) => read,
            _ => setting,
        }
    }

    /// A group's option overrides the global one.
    fn in_force<T>(self, setting: Setting, own: Option<T>, global: Option<T>) -> Option<T> {
        let own = own.filter(|_| !self.has(F::Ignored(Level::Group, setting)));
        let global = global.filter(|_| !self.has(F::Ignored(Level::Global, setting)));
        if self.has(F::GlobalFirst(setting)) { global.or(own) } else { own.or(global) }
    }

    /// What an absent setting counts as.
    pub fn default<T>(self, setting: Setting, sound: T, faulty: T) -> T {
        if self.has(F::Default(setting)) { faulty } else { sound }
    }

    /// Entry words as they are used.
    pub fn words(self, purpose: Use, mut bits: [u64; 4]) -> [u64; 4] {
        if let Some(F::WordIgnored(fault, word)) = self.fault
            && fault == purpose
        {
            bits[word] = 0;
        }
        bits
    }

    /// What subgroups follow one another by, if it isn't the smallest id.
    pub fn tie(self) -> Option<Tie> {
        if let Some(F::SubgroupsBy(tie)) = self.fault { Some(tie) } else { None }
    }

    /// How marks are got wrong, if they are.
    pub fn marking(self) -> Option<Marking> {
        if let Some(F::Marks(marking)) = self.fault { Some(marking) } else { None }
    }

    /// The rules by which marks read their limits.
    pub fn of_marks(self) -> Self {
        match self.marking() {
            Some(Marking::GlobalFirst(setting)) => Self::with(F::GlobalFirst(setting)),
            Some(Marking::Ignored(level, setting)) => Self::with(F::Ignored(level, setting)),
            Some(Marking::Default(setting)) => Self::with(F::Default(setting)),
            _ => self,
        }
    }

    /// How the two nones of a cut are told wrong, if they are.
    pub fn telling(self) -> Option<Telling> {
        if let Some(F::Nones(telling)) = self.fault { Some(telling) } else { None }
    }

    /// The area that a refused call writes.
    pub fn refused_writes(self) -> Option<Area> {
        if let Some(F::RefusedWrites(area)) = self.fault { Some(area) } else { None }
    }
}

/// A limit among the options.
fn double(setting: Setting, options: &Options) -> Option<f64> {
    match setting {
        Setting::MinSize => options.min_size,
        Setting::MaxSize => options.max_size,
        Setting::MinModuleSize => options.min_module_size,
        Setting::MaxModuleSize => options.max_module_size,
        _ => None,
    }
}
