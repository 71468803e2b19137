//! Kinds of whole build.

use text::{Build, Chunk, ChunkList, Chunks, Damage, Options, tables};

use super::Kinds;
use crate::reference::{
    capture::eligible,
    chunks::chunk_list,
    trace::{Event, Trace},
};

pub fn kinds(build: &Build, list: &ChunkList) -> Kinds {
    let chunks = Chunks { build: build.clone(), damage: Damage::default() };
    let (_, trace) = chunk_list(&tables::of_chunks(&chunks));
    let mut kinds = of_counts(build, list);
    kinds.extend(of_events(&trace));
    kinds.extend(of_marks(build, list));
    kinds.extend(of_groups(build));
    kinds.extend(of_modules(build));
    kinds
}

fn of_counts(build: &Build, list: &ChunkList) -> Kinds {
    let total: u64 = build.modules.iter().filter(|m| m.flags & 3 == 3).map(|m| m.size).sum();
    vec![
        ("no module", build.modules.is_empty()),
        ("no group", build.groups.is_empty()),
        ("no chunk", list.chunks.is_empty()),
        ("one chunk", list.chunks.len() == 1),
        ("several chunks", list.chunks.len() > 1),
        ("chunks on entry", build.count_on_entry > 0),
        ("65,535 chunks on entry", build.count_on_entry == 65_535),
        ("256 entries", build.entries == 256),
        ("name 65,534", list.chunks.iter().any(|chunk| chunk.name == 65_534)),
        ("a total of 2^53", total == 1 << 53),
        ("4,096 modules", build.modules.len() == 4_096),
        ("64 groups", build.groups.len() == 64),
        ("65,535 records", build.records.len() == 65_535),
    ]
}

fn of_events(trace: &Trace) -> Kinds {
    let happened = |event: Event| trace.events.contains(&event);
    vec![
        ("a dependency captured", happened(Event::Captured)),
        ("a matched module filtered out", happened(Event::Filtered)),
        ("a set divided by entry bits", happened(Event::Divided)),
        ("subgroups joined", happened(Event::Joined)),
        ("subgroups in another order than their numbers", happened(Event::OutOfNumbers)),
        ("a smallest id that came with a join", happened(Event::JoinedFirst)),
        ("a smallest id that left before its item's turn", happened(Event::FirstLeft)),
        ("an item emptied", happened(Event::Emptied)),
        ("an item dropped", happened(Event::Dropped)),
        ("an item at its min_size", happened(Event::AtMinSize)),
        ("an item at its max_size", happened(Event::AtMaxSize)),
        ("an item cut", happened(Event::Cut)),
        ("a piece cut again", happened(Event::CutAgain)),
        ("an item above its max_size without a cut", happened(Event::Uncuttable)),
        ("a piece above its maximum", happened(Event::PieceAbove)),
        ("an item that modules left", happened(Event::Narrowed)),
        ("a mark that changed when modules left", happened(Event::MarkChanged)),
        ("bits wider than the chunk's modules", happened(Event::WiderBits)),
    ]
}

fn of_marks(build: &Build, list: &ChunkList) -> Kinds {
    let own = |chunk: &Chunk| build.groups[chunk.group as usize].options.max_size;
    let in_force = |chunk: &Chunk| own(chunk).or(build.options.max_size);
    let is_above =
        |chunk: &Chunk, limit: Option<f64>| limit.is_some_and(|limit| chunk.size > limit);
    let any = |is_so: &dyn Fn(&Chunk) -> bool| list.chunks.iter().any(is_so);
    let otherwise = |chunk: &Chunk| {
        let both = own(chunk).is_some() && build.options.max_size.is_some();
        both && is_above(chunk, own(chunk)) != is_above(chunk, build.options.max_size)
    };
    vec![
        ("a chunk without a maximum", any(&|chunk| in_force(chunk).is_none())),
        (
            "a chunk below its maximum",
            any(&|chunk| in_force(chunk).is_some_and(|max| chunk.size < max)),
        ),
        ("a chunk at its maximum", any(&|chunk| in_force(chunk) == Some(chunk.size))),
        ("a chunk above its maximum with one module", any(&|chunk| chunk.mark == 1)),
        ("a chunk above its maximum with no cut allowed", any(&|chunk| chunk.mark == 2)),
        ("a chunk of size 0 above its maximum", any(&|chunk| chunk.mark > 0 && chunk.size == 0.0)),
        ("a chunk that the global maximum would mark otherwise", any(&otherwise)),
    ]
}

fn of_groups(build: &Build) -> Kinds {
    let groups = &build.groups;
    let priority = |at: usize| groups[at].priority.unwrap_or(0);
    let pairs = || (0..groups.len()).flat_map(|b| (0..b).map(move |a| (a, b)));
    let named = |group: usize, module: usize| build.answers[group][module] >= 2;
    let overlap = |a: usize, b: usize| (0..build.modules.len()).any(|m| named(a, m) && named(b, m));
    let names = |answers: &Vec<u32>| {
        let mut names: Vec<u32> = answers.iter().copied().filter(|answer| *answer >= 2).collect();
        names.sort_unstable();
        names.dedup();
        names.len()
    };
    vec![
        (
            "a later group of higher priority",
            pairs().any(|(a, b)| priority(a) < priority(b) && overlap(a, b)),
        ),
        (
            "groups of one priority",
            pairs().any(|(a, b)| priority(a) == priority(b) && overlap(a, b)),
        ),
        ("several names in a group", build.answers.iter().any(|answers| names(answers) > 1)),
        ("an answer without a name", build.answers.iter().flatten().any(|answer| *answer == 1)),
        ("an entries-aware group", groups.iter().any(|group| group.entries_aware == Some(true))),
        (
            "a threshold without entries_aware",
            groups
                .iter()
                .any(|group| group.threshold.is_some() && group.entries_aware != Some(true)),
        ),
        (
            "a group's option over a global one",
            groups.iter().any(|group| overrides(&group.options, &build.options)),
        ),
    ]
}

/// Whether a group gives an option that the build gives otherwise.
fn overrides(group: &Options, global: &Options) -> bool {
    let differs =
        |own: Option<f64>, other: Option<f64>| own.is_some() && other.is_some() && own != other;
    differs(group.min_size, global.min_size)
        || differs(group.max_size, global.max_size)
        || differs(group.min_module_size, global.min_module_size)
        || differs(group.max_module_size, global.max_module_size)
}

fn of_modules(build: &Build) -> Kinds {
    let modules = &build.modules;
    let outside = |flags: u8| flags & 3 != 3;
    let shares = |a: usize, b: usize| {
        a != b && (modules[a].id == modules[b].id || modules[a].order == modules[b].order)
    };
    let small = modules.len() < 1_000;
    let shared = small
        && (0..modules.len())
            .any(|a| outside(modules[a].flags) && (0..modules.len()).any(|b| shares(a, b)));
    let depends = |flags: fn(u8) -> bool| {
        modules.iter().filter(|module| eligible(module.flags)).any(|module| {
            let record = module.first_record.checked_sub(1).map(|at| build.records[at as usize]);
            record.is_some_and(|record| flags(modules[record.module as usize].flags))
        })
    };
    vec![
        ("a dependency on an assigned module", depends(|flags| flags & 7 == 7)),
        ("a dependency on an excluded module", depends(|flags| flags & 2 == 0)),
        ("a dependency on an external module", depends(|flags| flags & 1 == 0)),
        ("an id or order shared with a module that takes no part", shared),
        (
            "ids and numbers in different orders",
            modules.windows(2).any(|pair| pair[0].id > pair[1].id),
        ),
    ]
}
