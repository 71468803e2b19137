//! Stand-in for the crate's output of linking, with the fields that manual code splitting reads.

use rolldown_common::{EntryPoint, ModuleIdx, ModuleTable};
use rolldown_utils::indexmap::FxIndexMap;

use crate::types::linking_metadata::LinkingMetadataVec;

/// The modules, the entries, and what linking found out about each module.
#[derive(Debug, Default)]
pub struct LinkStageOutput {
    pub module_table: ModuleTable,
    pub entries: FxIndexMap<ModuleIdx, Vec<EntryPoint>>,
    pub metas: LinkingMetadataVec,
}
