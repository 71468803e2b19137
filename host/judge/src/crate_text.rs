//! One copy of the crate's text, as functions.

use arcstr::ArcStr;
use rolldown_common::{ModuleIdx, ModuleTable};
use rolldown_error::BuildResult;
use rolldown_utils::{BitSet, IndexBitSet};

use crate::{World, chunk_graph::ChunkGraph};

/// A cut: its index, and the sizes of the left and the right side.
pub type SplitIndex = (usize, f64, f64);

/// The functions of one copy of the text.
pub struct CrateText {
    /// `stable_id_similarity`.
    pub similarity: fn(&str, &str) -> i32,
    /// `pick_relevance_split_index` of ids, sizes, minimum and maximum.
    pub cut: fn(&[&str], &[f64], f64, f64) -> Option<SplitIndex>,
    /// `add_module_and_dependencies_to_group_recursively` from a start: the group's modules.
    pub capture: fn(&World, ModuleIdx, bool) -> Vec<ModuleIdx>,
    /// `passes_static_filters` of group 0 and module 0.
    pub filter: fn(&World) -> bool,
    /// `merge_entries_aware_subgroups`, where subgroup i holds module i and these bits.
    pub merge: fn(&ModuleTable, &[BitSet], f64) -> Vec<RemainingSubgroup>,
    /// `emit_chunk_from_group` of group 0 with module 0 and this name: the chunk's name, which
    /// `derive_entries_aware_chunk_name` makes if the group is entries-aware.
    pub name: fn(&World, &str) -> ArcStr,
    /// `apply_manual_code_splitting`, which runs the whole of `split`.
    pub split: fn(&World, &mut ChunkGraph, &mut IndexBitSet<ModuleIdx>) -> BuildResult<()>,
}

/// A subgroup that is still there after a merge.
pub struct RemainingSubgroup {
    pub key: u32,
    pub modules: Vec<ModuleIdx>,
    pub size: f64,
    pub bits: BitSet,
}
