//! A whole build, put to one copy of the crate's text and to its probed copy.

use oxc_index::Idx;
use rolldown_common::{Chunk, ChunkIdx, ChunkKind, ChunkReasonType, ModuleIdx};
use rolldown_utils::{BitSet, IndexBitSet, xxhash::handed_out};
use rustc_hash::order::{Orders, under};
use text::{Build, ChunkList, Module};

use crate::{
    CrateText, Judge, Outside, World,
    bits::words,
    chunk_graph::ChunkGraph,
    groups::{match_groups, name_number},
    marks,
    names::entries,
    probe::{self, clock},
};

/// The chunk list of a build, in the text's own words, with the sizes that the probe reports and the
/// marks that follow from its chunks.
pub fn chunks(judge: &Judge, build: &Build) -> Result<ChunkList, Outside> {
    let world = World::new(build, match_groups(build, judge.callbacks))?;
    let mut list = run(judge, judge.text, &world, build)?;
    if !std::ptr::eq(judge.text, judge.probed) {
        probe::take();
        if run(judge, judge.probed, &world, build)? != list {
            return Err(Outside::Broken("the probed copy of the text disagrees".into()));
        }
    }
    let sizes = probe::take();
    if sizes.len() != list.chunks.len() {
        return Err(Outside::Broken("the probe reported another number of chunks".into()));
    }
    for (chunk, size) in list.chunks.iter_mut().zip(sizes) {
        chunk.size = size;
    }
    marks::mark(judge.text, build, &mut list)?;
    Ok(list)
}

/// The names of a build's new chunks, where entries have these names; this hash stands in those that
/// are cut.
pub fn names(
    judge: &Judge,
    build: &Build,
    entry_names: &[Vec<u8>],
    hash: &str,
) -> Result<Vec<Vec<u8>>, Outside> {
    let mut world = World::new(build, match_groups(build, judge.callbacks))?;
    world.link_output.entries = entries(entry_names)?;
    let run = || run_text(judge.text, &world, build);
    let (graph, _) = handed_out(hash, || under(orders(judge, build), run))?;
    let new = graph.chunk_table.iter().skip(build.count_on_entry as usize);
    let named = |chunk: &Chunk| Some(chunk.name.as_ref()?.as_bytes().to_vec());
    let names: Option<_> = new.map(named).collect();
    names.ok_or_else(|| Outside::Broken("a chunk without its name".into()))
}

/// Runs one copy, from the callbacks to the sorted modules. Sizes and marks are left at zero.
fn run(
    judge: &Judge,
    text: &CrateText,
    world: &World,
    build: &Build,
) -> Result<ChunkList, Outside> {
    let (graph, assigned) = under(orders(judge, build), || run_text(text, world, build))?;
    let list = chunk_list(&graph, build)?;
    for (number, chunk) in list.chunk_of.iter().enumerate() {
        let module = ModuleIdx::from_usize(number);
        if assigned.has_bit(module) != (*chunk > 0 || world.module_to_assigned.has_bit(module)) {
            return Err(Outside::Broken(format!("module {number} is assigned otherwise")));
        }
    }
    Ok(list)
}

/// The orders of walking for a build.
fn orders(judge: &Judge, build: &Build) -> Orders {
    let exec_orders: Vec<u32> = build.modules.iter().map(|module| module.order).collect();
    judge.walk.orders(&exec_orders, &id_places(&build.modules))
}

/// The place of each module's id in byte order.
fn id_places(modules: &[Module]) -> Vec<u32> {
    let mut sorted: Vec<usize> = (0..modules.len()).collect();
    sorted.sort_by_key(|number| &modules[*number].id);
    let mut places = vec![0; modules.len()];
    for (place, number) in (0..).zip(sorted) {
        places[number] = place;
    }
    places
}

/// Runs one copy by the clock: `split`, then the sort of each chunk's modules.
pub fn run_text(
    text: &CrateText,
    world: &World,
    build: &Build,
) -> Result<(ChunkGraph, IndexBitSet<ModuleIdx>), Outside> {
    let mut graph = graph_on_entry(build);
    let mut assigned = world.module_to_assigned.clone();
    clock(|| {
        let result = (text.split)(world, &mut graph, &mut assigned);
        graph.sort_chunk_modules(&world.link_output, &world.options);
        result
    })
    .map_err(|error| Outside::Broken(error.0))?;
    Ok((graph, assigned))
}

/// A graph that holds as many chunks as there are on entry, all of them empty.
fn graph_on_entry(build: &Build) -> ChunkGraph {
    let mut graph = ChunkGraph::new(build.modules.len());
    for _ in 0..build.count_on_entry {
        let bits = BitSet::new(0);
        let base = "".into();
        graph.add_chunk(Chunk::new(None, None, bits, vec![], ChunkKind::Common, base, None));
    }
    graph
}

/// What the graph holds beyond the chunks on entry.
pub fn chunk_list(graph: &ChunkGraph, build: &Build) -> Result<ChunkList, Outside> {
    let new = graph.chunk_table.iter_enumerated().skip(build.count_on_entry as usize);
    let chunks = new.map(|(idx, chunk)| new_chunk(idx, chunk)).collect::<Result<_, _>>()?;
    let chunk_of = graph
        .module_to_chunk
        .iter()
        .map(|chunk| chunk.map_or(0, |chunk| chunk.raw() + 1))
        .collect();
    Ok(ChunkList { chunks, chunk_of })
}

/// One new chunk. Its group stands in the reason that it was made for, and its name, or that of
/// its group and name if it is entries-aware, at the beginning of its own.
fn new_chunk(idx: ChunkIdx, chunk: &Chunk) -> Result<text::Chunk, Outside> {
    let ChunkReasonType::ManualCodeSplitting { group_index: group } = *chunk.chunk_reason_type
    else {
        return Err(Outside::Broken("a chunk was made for another reason".into()));
    };
    let name = chunk.name.as_ref().and_then(|name| name_number(name.as_str()));
    Ok(text::Chunk {
        chunk: idx.raw(),
        group,
        name: name.ok_or_else(|| Outside::Broken("a chunk without its name".into()))?,
        size: 0.0,
        bits: words(&chunk.bits),
        mark: 0,
        modules: chunk.modules.iter().map(|module| module.raw()).collect(),
    })
}
