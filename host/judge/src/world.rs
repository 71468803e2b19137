//! What the crate's text reads of a build, made from a case.

use std::{collections::HashMap, sync::Arc};

use arcstr::ArcStr;
use oxc_index::Idx;
use rolldown_common::{
    EntryPoint, ExternalModule, ManualCodeSplittingOptions, MatchGroup, Module, ModuleIdx,
    ModuleTable, ModuleTagBitSet, ModuleTagRegistry, NormalModule, NormalizedBundlerOptions,
};
use rolldown_plugin::SharedPluginDriver;
use rolldown_utils::{
    IndexBitSet,
    indexmap::{FxIndexMap, FxIndexSet},
};
use text::{Build, Options, Record};

use crate::{
    Outside, SharedOptions,
    bits::bit_set,
    stages::{
        generate_stage::code_splitting::{IndexSplittingInfo, SplittingInfo},
        link_stage::LinkStageOutput,
    },
    types::linking_metadata::LinkingMetadata,
};

/// Everything that the crate's text is handed.
pub struct World {
    pub link_output: LinkStageOutput,
    pub index_splitting_info: IndexSplittingInfo,
    pub options: SharedOptions,
    pub plugin_driver: SharedPluginDriver,
    pub input_base: ArcStr,
    pub tag_registry: ModuleTagRegistry,
    pub module_to_assigned: IndexBitSet<ModuleIdx>,
}

impl World {
    /// The world of a build, its groups with their callbacks made already.
    pub fn new(build: &Build, groups: Vec<MatchGroup>) -> Result<Self, Outside> {
        let first: Vec<u32> = build.modules.iter().map(|module| module.first_record).collect();
        let mut link_output = LinkStageOutput {
            module_table: module_table(&build.modules)?,
            entries: entries(build.entries),
            ..LinkStageOutput::default()
        };
        let mut module_to_assigned = IndexBitSet::new(build.modules.len());
        let mut chains = HashMap::new();
        for (number, module) in build.modules.iter().enumerate() {
            link_output.metas.push(LinkingMetadata {
                is_included: module.flags & 2 != 0,
                dependencies: dependencies(&mut chains, first[number], &build.records),
                ..LinkingMetadata::default()
            });
            if module.flags & 4 != 0 {
                module_to_assigned.set_bit(ModuleIdx::from_usize(number));
            }
        }
        Ok(Self {
            link_output,
            index_splitting_info: splitting_info(build),
            options: Arc::new(options(&build.options, groups)),
            plugin_driver: SharedPluginDriver::default(),
            input_base: ArcStr::from(""),
            tag_registry: ModuleTagRegistry,
            module_to_assigned,
        })
    }
}

/// The modules. The id that callbacks are asked about is the module's number in decimal.
pub fn module_table(modules: &[text::Module]) -> Result<ModuleTable, Outside> {
    let one = |(number, module): (usize, &text::Module)| {
        let stable_id = std::str::from_utf8(&module.id).map_err(|_| Outside::IdIsNoText)?;
        Ok(crate_module(number, module, ArcStr::from(stable_id)))
    };
    let modules = modules.iter().enumerate().map(one).collect::<Result<_, _>>()?;
    Ok(ModuleTable { modules })
}

fn crate_module(number: usize, module: &text::Module, stable_id: ArcStr) -> Module {
    let idx = ModuleIdx::from_usize(number);
    let id = ArcStr::from(number.to_string());
    let exec_order = module.order;
    if module.flags & 1 == 0 {
        return Module::External(Box::new(ExternalModule { idx, id, stable_id, exec_order }));
    }
    Module::Normal(Box::new(NormalModule {
        idx,
        id,
        stable_id,
        exec_order,
        size: module.size,
        import_records: Vec::new(),
        meta: Default::default(),
    }))
}

/// What a module depends on. A chain that several modules share is walked once.
fn dependencies(
    chains: &mut HashMap<u32, FxIndexSet<ModuleIdx>>,
    first: u32,
    records: &[Record],
) -> FxIndexSet<ModuleIdx> {
    chains.entry(first).or_insert_with(|| chain(first, records).collect()).clone()
}

/// The modules named along a chain of records, from its first record to its zero.
fn chain(first: u32, records: &[Record]) -> impl Iterator<Item = ModuleIdx> {
    let mut number = first;
    std::iter::from_fn(move || {
        let record = records[number.checked_sub(1)? as usize];
        number = record.next;
        Some(ModuleIdx::from_usize(record.module as usize))
    })
}

fn splitting_info(build: &Build) -> IndexSplittingInfo {
    let info = |module: &text::Module| SplittingInfo {
        bits: bit_set(build.entries, module.bits),
        share_count: module.share_count,
        tags_bit_set: ModuleTagBitSet(module.tags),
    };
    build.modules.iter().map(info).collect()
}

/// Entries with names of their own, so that no chunk name needs an entry's module.
fn entries(count: u64) -> FxIndexMap<ModuleIdx, Vec<EntryPoint>> {
    let idx = ModuleIdx::from_usize(0);
    let entry = |number| EntryPoint { name: Some(ArcStr::from(format!("e{number}"))), idx };
    let mut entries = FxIndexMap::default();
    entries.push(idx, (0..count).map(entry).collect());
    entries
}

fn options(global: &Options, groups: Vec<MatchGroup>) -> NormalizedBundlerOptions {
    NormalizedBundlerOptions {
        manual_code_splitting: Some(ManualCodeSplittingOptions {
            min_size: global.min_size,
            max_size: global.max_size,
            min_module_size: global.min_module_size,
            max_module_size: global.max_module_size,
            min_share_count: global.min_share_count,
            include_dependencies_recursively: global.recursive,
            groups: Some(groups),
            internal_invalidate_module_info_cache: None,
        }),
        ..NormalizedBundlerOptions::default()
    }
}
