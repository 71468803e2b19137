//! Hands out the private functions of the copy of the crate's text that this is a child of.

use oxc_index::Idx;
use rustc_hash::order::{Holding, Numbered};

use super::*;
use crate::{CrateText, RemainingSubgroup, World, block_on::block_on, probe::clock};

/// The functions of this copy.
pub static TEXT: CrateText = CrateText {
    similarity: stable_id_similarity,
    cut: pick_relevance_split_index,
    capture,
    filter,
    merge,
    name,
    split,
};

fn capture(world: &World, start: ModuleIdx, recursively: bool) -> Vec<ModuleIdx> {
    let mut group = ModuleGroup {
        name: ArcStr::from("group"),
        match_group_index: 0,
        modules: FxHashSet::default(),
        priority: 0,
        sizes: 0.0,
        entries_aware_bits: None,
    };
    clock(|| {
        add_module_and_dependencies_to_group_recursively(
            &mut group,
            start,
            &world.link_output.metas,
            &world.link_output.module_table,
            &world.module_to_assigned,
            &mut FxHashSet::default(),
            recursively,
        );
    });
    group.modules.into_iter().collect()
}

fn filter(world: &World) -> bool {
    let module = world.link_output.module_table[ModuleIdx::from_usize(0)].as_normal();
    let (mut graph, mut assigned) = (ChunkGraph::new(1), world.module_to_assigned.clone());
    let splitter = splitter(world, &mut graph, &mut assigned);
    let group = splitter.match_groups[0];
    splitter.passes_static_filters(0, group, module.expect("a normal module"))
}

fn name(world: &World, group_name: &str) -> ArcStr {
    let module = ModuleIdx::from_usize(0);
    let (mut graph, mut assigned) = (ChunkGraph::new(1), world.module_to_assigned.clone());
    let mut splitter = splitter(world, &mut graph, &mut assigned);
    let bits = splitter.match_groups[0]
        .entries_aware
        .unwrap_or(false)
        .then(|| world.index_splitting_info[module].bits.clone());
    let group = ModuleGroup {
        name: ArcStr::from(group_name),
        match_group_index: 0,
        modules: std::iter::once(module).collect(),
        priority: 0,
        sizes: 0.0,
        entries_aware_bits: bits,
    };
    splitter.emit_chunk_from_group(&group, &mut []);
    let made = graph.chunk_table.iter().next().expect("a chunk is made");
    made.name.clone().expect("it has a name")
}

/// The splitter of a world that has one group.
fn splitter<'a>(
    world: &'a World,
    chunk_graph: &'a mut ChunkGraph,
    module_to_assigned: &'a mut IndexBitSet<ModuleIdx>,
) -> ManualSplitter<'a> {
    let chunking_options = world.options.manual_code_splitting.as_ref().expect("options are given");
    let groups = chunking_options.groups.as_ref().expect("a group is given");
    let required_tags =
        groups[0].tags.as_ref().map(|tags| world.tag_registry.compile_tags_to_bit_set(tags));
    ManualSplitter {
        link_output: &world.link_output,
        index_splitting_info: &world.index_splitting_info,
        options: &world.options,
        chunking_options,
        match_groups: groups.iter().collect(),
        match_group_required_tags: vec![required_tags],
        plugin_driver: &world.plugin_driver,
        input_base: &world.input_base,
        chunk_graph,
        module_to_assigned,
        flattened_entries: world.link_output.entries.iter().flat_map(|(_, entries)| entries).collect(),
    }
}

fn merge(module_table: &ModuleTable, bits: &[BitSet], threshold: f64) -> Vec<RemainingSubgroup> {
    let mut subgroups: FxHashMap<u32, EntriesAwareSubgroup> = FxHashMap::default();
    for (key, bits) in (0..).zip(bits) {
        let module = ModuleIdx::from_usize(key as usize);
        let modules = std::iter::once(module).collect();
        let sizes = module_size(module, module_table);
        subgroups.insert(key, EntriesAwareSubgroup { bits: bits.clone(), modules, sizes });
    }
    let keys: Vec<u32> = subgroups.keys().copied().collect();
    clock(|| merge_entries_aware_subgroups(&mut subgroups, &keys, threshold, module_table));
    let remaining = |(key, subgroup): (u32, EntriesAwareSubgroup)| RemainingSubgroup {
        key,
        modules: subgroup.modules.into_iter().collect(),
        size: subgroup.sizes,
        bits: subgroup.bits,
    };
    subgroups.into_iter().map(remaining).collect()
}

/// A map of subgroups can be walked by the modules that they hold when the walk begins.
impl Holding for EntriesAwareSubgroup {
    fn numbers(&self) -> impl Iterator<Item = u32> {
        self.modules.iter().map(|module| module.number())
    }
}

fn split(
    world: &World,
    chunk_graph: &mut ChunkGraph,
    module_to_assigned: &mut IndexBitSet<ModuleIdx>,
) -> BuildResult<()> {
    let stage = GenerateStage {
        link_output: &world.link_output,
        options: &world.options,
        plugin_driver: &world.plugin_driver,
    };
    block_on(stage.apply_manual_code_splitting(
        &world.index_splitting_info,
        module_to_assigned,
        chunk_graph,
        &world.input_base,
        &world.tag_registry,
    ))
}
