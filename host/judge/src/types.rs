//! The modules that the crate's text expects below `types`.

/// Stand-in for the crate's linking metadata, with the fields that manual code splitting reads.
pub mod linking_metadata {
    use oxc_index::IndexVec;
    use rolldown_common::{ModuleIdx, RuntimeHelper};
    use rolldown_utils::indexmap::FxIndexSet;

    /// What linking found out about a module. Its dependencies are a set, as in the crate.
    #[derive(Debug, Default)]
    pub struct LinkingMetadata {
        pub is_included: bool,
        pub dependencies: FxIndexSet<ModuleIdx>,
        pub depended_runtime_helper: RuntimeHelper,
    }

    /// One for each module.
    pub type LinkingMetadataVec = IndexVec<ModuleIdx, LinkingMetadata>;
}
