//! Chunks.

use std::ops::{Deref, DerefMut};

use arcstr::ArcStr;
use oxc_index::IndexVec;
use rolldown_utils::BitSet;

use crate::ModuleIdx;

oxc_index::define_index_type! {
    /// The number of a chunk.
    pub struct ChunkIdx = u32;
}

/// A chunk.
#[derive(Debug)]
pub struct Chunk {
    pub name: Option<ArcStr>,
    pub bits: BitSet,
    pub modules: Vec<ModuleIdx>,
    pub kind: ChunkKind,
    pub exec_order: u32,
    pub depended_runtime_helper: RuntimeHelper,
    pub chunk_reason_type: Box<ChunkReasonType>,
    pub debug_info: Vec<ChunkDebugInfo>,
}

impl Chunk {
    /// A chunk. File name, base and signatures are not kept: nothing compared reads them.
    pub fn new(
        name: Option<ArcStr>,
        _file_name: Option<ArcStr>,
        bits: BitSet,
        modules: Vec<ModuleIdx>,
        kind: ChunkKind,
        _input_base: ArcStr,
        _preserve_entry_signature: Option<()>,
    ) -> Self {
        Self {
            name,
            bits,
            modules,
            kind,
            exec_order: u32::MAX,
            depended_runtime_helper: RuntimeHelper,
            chunk_reason_type: Box::default(),
            debug_info: Vec::new(),
        }
    }
}

/// What a chunk is for.
#[derive(Debug)]
pub enum ChunkKind {
    EntryPoint { meta: ChunkMeta, bit: u32, module: ModuleIdx },
    Common,
}

/// Flags of an entry chunk.
#[derive(Debug, Clone, Copy)]
pub struct ChunkMeta(u8);

impl ChunkMeta {
    #[allow(non_upper_case_globals)]
    pub const UserDefinedEntry: Self = Self(1);

    /// Whether all flags of `other` are set.
    pub fn contains(self, other: Self) -> bool {
        self.0 & other.0 == other.0
    }
}

/// Why a chunk was made.
#[derive(Debug, Default, PartialEq, Eq)]
pub enum ChunkReasonType {
    ManualCodeSplitting {
        group_index: u32,
    },
    PreserveModules,
    Entry,
    #[default]
    Common,
}

/// A note on a chunk.
#[derive(Debug)]
pub enum ChunkDebugInfo {
    CreateReason(String),
}

/// All chunks.
#[derive(Debug, Default)]
pub struct ChunkTable {
    pub chunks: IndexVec<ChunkIdx, Chunk>,
}

impl Deref for ChunkTable {
    type Target = IndexVec<ChunkIdx, Chunk>;
    #[inline]
    fn deref(&self) -> &Self::Target {
        &self.chunks
    }
}

impl DerefMut for ChunkTable {
    #[inline]
    fn deref_mut(&mut self) -> &mut Self::Target {
        &mut self.chunks
    }
}

/// The runtime helpers that a module needs, which document 01 leaves out.
#[derive(Debug, Clone, Copy, Default)]
pub struct RuntimeHelper;

impl RuntimeHelper {
    /// Adds helpers.
    #[inline]
    pub fn insert(&mut self, _other: Self) {}
}

/// A symbol. No map of symbols is ever filled here.
#[derive(Debug, Clone, Copy, PartialEq, Eq, Hash)]
pub struct SymbolRef;

/// What became of a chunk after code splitting. Nothing here removes one.
#[derive(Debug, PartialEq, Eq)]
pub enum PostChunkOptimizationOperation {
    Removed,
}
