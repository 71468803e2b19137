//! What a side answered.

use crate::Call;

/// The reply to one case.
#[derive(Debug, Clone, PartialEq)]
pub struct Reply {
    /// The tag of the case.
    pub tag: String,
    /// Which call answered.
    pub call: Call,
    /// The answer, or the number of the refusal.
    pub outcome: Result<Answer, u32>,
    /// What a lent area shows to be wrong; each is a line that begins with `!`.
    pub warnings: Vec<String>,
}

/// An answer of an accepted call.
#[derive(Debug, Clone, PartialEq)]
pub enum Answer {
    Sim(u32),
    Cut(CutOutcome),
    /// One mark for each module.
    Capture(Vec<u8>),
    Filter(bool),
    Merge(Vec<MergedSubgroup>),
    Chunks(ChunkList),
    /// The bytes of a chunk's name.
    Name(Vec<u8>),
}

/// A cut, or why there is none.
#[derive(Debug, Clone, Copy, PartialEq)]
pub enum CutOutcome {
    /// There are fewer than two modules.
    FewerThanTwo,
    /// There are two or more, and no cut of them is allowed.
    NoneAllowed,
    At(CutAnswer),
}

/// A cut with its two sizes.
#[derive(Debug, Clone, Copy)]
pub struct CutAnswer {
    pub index: u64,
    pub left: f64,
    pub right: f64,
}

impl PartialEq for CutAnswer {
    /// Sizes are compared bit for bit.
    fn eq(&self, other: &Self) -> bool {
        self.index == other.index
            && self.left.to_bits() == other.left.to_bits()
            && self.right.to_bits() == other.right.to_bits()
    }
}

/// A subgroup after the merge; size and bits of one that vanished are zero.
#[derive(Debug, Clone, Copy, PartialEq, Eq)]
pub struct MergedSubgroup {
    /// The number of the subgroup that it ended in.
    pub number: u32,
    pub size: u64,
    pub bits: [u64; 4],
}

/// The new chunks, and where each module went.
#[derive(Debug, Clone, PartialEq)]
pub struct ChunkList {
    /// The new chunks in the order in which they were made.
    pub chunks: Vec<Chunk>,
    /// For each module, the number of its chunk plus 1, or 0.
    pub chunk_of: Vec<u32>,
}

/// A new chunk.
#[derive(Debug, Clone)]
pub struct Chunk {
    /// Its number, which goes on from the count on entry.
    pub chunk: u32,
    pub group: u32,
    pub name: u32,
    pub size: f64,
    pub bits: [u64; 4],
    /// Why it is too large: 0 it is within its maximum or has none, 1 it is above it with one module,
    /// 2 it is above it and no cut of its modules is allowed.
    pub mark: u8,
    /// Its modules in execution order.
    pub modules: Vec<u32>,
}

impl PartialEq for Chunk {
    /// Sizes are compared bit for bit.
    fn eq(&self, other: &Self) -> bool {
        self.chunk == other.chunk
            && self.group == other.group
            && self.name == other.name
            && self.size.to_bits() == other.size.to_bits()
            && self.bits == other.bits
            && self.mark == other.mark
            && self.modules == other.modules
    }
}
