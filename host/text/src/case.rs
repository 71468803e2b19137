//! What is handed in: a build or the arguments of a leaf call.

use crate::damage::Damage;

/// One call to be answered.
#[derive(Debug, Clone, PartialEq)]
pub struct Case {
    /// Any word; it comes back in the reply.
    pub tag: String,
    /// What is asked.
    pub question: Question,
}

/// The seven calls.
#[derive(Debug, Clone, Copy, PartialEq, Eq, PartialOrd, Ord)]
pub enum Call {
    Similarity,
    Cut,
    Capture,
    Filter,
    Merge,
    Chunks,
    Name,
}

impl Call {
    /// All calls, leaves first.
    pub const ALL: [Self; 7] = [
        Self::Similarity,
        Self::Cut,
        Self::Capture,
        Self::Filter,
        Self::Merge,
        Self::Name,
        Self::Chunks,
    ];

    /// The word that stands for the call in a text.
    pub fn word(self) -> &'static str {
        match self {
            Self::Similarity => "sim",
            Self::Cut => "cut",
            Self::Capture => "capture",
            Self::Filter => "filter",
            Self::Merge => "merge",
            Self::Chunks => "chunks",
            Self::Name => "name",
        }
    }
}

/// A call with what it is handed.
#[derive(Debug, Clone, PartialEq)]
pub enum Question {
    Sim(Sim),
    Cut(Cut),
    Capture(Capture),
    Filter(Filter),
    Merge(Merge),
    Chunks(Box<Chunks>),
    Name(Box<Name>),
}

impl Question {
    /// Which call it is.
    pub fn call(&self) -> Call {
        match self {
            Self::Sim(_) => Call::Similarity,
            Self::Cut(_) => Call::Cut,
            Self::Capture(_) => Call::Capture,
            Self::Filter(_) => Call::Filter,
            Self::Merge(_) => Call::Merge,
            Self::Chunks(_) => Call::Chunks,
            Self::Name(_) => Call::Name,
        }
    }

    /// Its damage, if the call has tables or areas that can be damaged.
    pub fn damage(&self) -> Option<&Damage> {
        match self {
            Self::Sim(_) | Self::Filter(_) => None,
            Self::Cut(cut) => Some(&cut.damage),
            Self::Capture(capture) => Some(&capture.damage),
            Self::Merge(merge) => Some(&merge.damage),
            Self::Chunks(chunks) => Some(&chunks.damage),
            Self::Name(name) => Some(&name.damage),
        }
    }
}

/// Similarity of two ids.
#[derive(Debug, Clone, PartialEq, Eq)]
pub struct Sim {
    pub left: Vec<u8>,
    pub right: Vec<u8>,
}

/// A cut of modules in the order given.
#[derive(Debug, Clone, PartialEq)]
pub struct Cut {
    pub minimum: f64,
    pub maximum: f64,
    /// The id and the size of each module.
    pub modules: Vec<(Vec<u8>, u64)>,
    pub damage: Damage,
}

/// A merge of subgroups.
#[derive(Debug, Clone, PartialEq)]
pub struct Merge {
    /// How many entries there are.
    pub entries: u64,
    /// An absent threshold is 0.
    pub threshold: Option<f64>,
    pub subgroups: Vec<Subgroup>,
    pub damage: Damage,
}

/// A subgroup before the merge.
#[derive(Debug, Clone, Copy, PartialEq, Eq)]
pub struct Subgroup {
    pub size: u64,
    pub bits: [u64; 4],
}

/// The filter on one module, with the limits in force.
#[derive(Debug, Clone, PartialEq)]
pub struct Filter {
    pub mask: u64,
    pub min_module_size: Option<f64>,
    pub max_module_size: Option<f64>,
    pub min_share_count: Option<u32>,
    pub tags: u64,
    pub size: u64,
    pub share_count: u32,
}

/// A capture from a start module.
#[derive(Debug, Clone, PartialEq, Eq)]
pub struct Capture {
    pub recursive: bool,
    pub start: u32,
    pub flags: Vec<u8>,
    pub first: Vec<u32>,
    /// Records 1 to D.
    pub records: Vec<Record>,
    pub damage: Damage,
}

/// A dependency record.
#[derive(Debug, Clone, Copy, PartialEq, Eq)]
pub struct Record {
    pub module: u32,
    pub next: u32,
}

/// A chunk that is to be named.
#[derive(Debug, Clone, PartialEq, Eq)]
pub struct Name {
    /// The names that groups give; a name's number is its place.
    pub group_names: Vec<Vec<u8>>,
    /// The name of each entry.
    pub entry_names: Vec<Vec<u8>>,
    /// The number of the chunk's name.
    pub number: u32,
    pub entries_aware: bool,
    pub bits: [u64; 4],
    /// What the host hands in as the hash of the full name.
    pub hash: Vec<u8>,
    pub damage: Damage,
}

/// A whole build, with its damage.
#[derive(Debug, Clone, PartialEq)]
pub struct Chunks {
    pub build: Build,
    pub damage: Damage,
}

/// A whole build as it stands in the text.
#[derive(Debug, Clone, PartialEq, Default)]
pub struct Build {
    /// How many entries there are.
    pub entries: u64,
    /// How many names there are.
    pub names: u64,
    pub count_on_entry: u64,
    pub options: Options,
    pub modules: Vec<Module>,
    /// Records 1 to D.
    pub records: Vec<Record>,
    pub groups: Vec<Group>,
    /// For each group, one answer for each module.
    pub answers: Vec<Vec<u32>>,
}

/// The options that a group shares with the build as a whole.
#[derive(Debug, Clone, PartialEq, Default)]
pub struct Options {
    pub min_size: Option<f64>,
    pub max_size: Option<f64>,
    pub min_module_size: Option<f64>,
    pub max_module_size: Option<f64>,
    pub min_share_count: Option<u32>,
    /// `include_dependencies_recursively`.
    pub recursive: Option<bool>,
}

/// A module.
#[derive(Debug, Clone, PartialEq, Eq, Default)]
pub struct Module {
    /// 1 normal, 2 included, 4 already assigned, summed.
    pub flags: u8,
    pub size: u64,
    /// The execution order.
    pub order: u32,
    pub share_count: u32,
    pub tags: u64,
    pub bits: [u64; 4],
    pub first_record: u32,
    pub id: Vec<u8>,
}

/// A group.
#[derive(Debug, Clone, PartialEq, Default)]
pub struct Group {
    pub options: Options,
    pub mask: u64,
    pub priority: Option<u32>,
    pub entries_aware: Option<bool>,
    /// `entries_aware_merge_threshold`.
    pub threshold: Option<f64>,
}
