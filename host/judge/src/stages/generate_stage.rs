//! The modules that the crate's text expects beside it.

// `chunk_ext`, the crate's own file.
include!(concat!(env!("OUT_DIR"), "/chunk_ext.rs"));

/// Stand-in for the part of the crate's `code_splitting` that manual code splitting reads.
pub mod code_splitting {
    use oxc_index::IndexVec;
    use rolldown_common::{ModuleIdx, ModuleTagBitSet};
    use rolldown_utils::BitSet;

    /// What is known of a module when code splitting begins.
    #[derive(Clone, Debug)]
    pub struct SplittingInfo {
        pub bits: BitSet,
        pub share_count: u32,
        pub tags_bit_set: ModuleTagBitSet,
    }

    /// One for each module.
    pub type IndexSplittingInfo = IndexVec<ModuleIdx, SplittingInfo>;
}
