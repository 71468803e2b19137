//! Stand-in for `rolldown_common`: the types that the crate's text leans on, with the fields it
//! reads and no others.
//!
//! Assumes, besides what each item says:
//! - `Module::size` is a whole number (`size() as f64` in the text), `NormalModule::size` is
//!   compared with the two module size limits, which are doubles as document 01 has them;
//! - `stable_id` is ordered by its bytes;
//! - an absent option is `None`, and its default is the one in the crate's text.
#![forbid(unsafe_code)]

mod chunk;
mod module;
mod options;
mod tags;

pub use chunk::{
    Chunk, ChunkDebugInfo, ChunkIdx, ChunkKind, ChunkMeta, ChunkReasonType, ChunkTable,
    PostChunkOptimizationOperation, RuntimeHelper, SymbolRef,
};
pub use module::{
    EcmaViewMeta, EntryPoint, ExternalModule, Module, ModuleIdx, ModuleTable, NormalModule,
};
pub use options::{
    ChunkModulesOrderBy, ChunkingContext, ExperimentalOptions, InvalidateModuleInfoCache,
    ManualCodeSplittingOptions, MatchGroup, MatchGroupName, MatchGroupTest, ModuleInfos, NameFn,
    NormalizedBundlerOptions, Ready, TestFn, TestRegex,
};
pub use tags::{ModuleTagBitSet, ModuleTagRegistry, tag_name};
