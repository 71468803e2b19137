//! Builds and leaf calls made ready once, to be put to the text by the clock many times.

use std::{hint::black_box, time::Duration};

use oxc_index::Idx;
use rolldown_common::{ModuleIdx, ModuleTable};
use rolldown_utils::BitSet;
use text::{Build, Capture, ChunkList, Cut, Merge, MergedSubgroup, Sim};

use crate::{
    Callbacks, CrateText, Outside, World,
    chunk_graph::ChunkGraph,
    copies,
    groups::match_groups,
    leaves, marks,
    probe::{clock, took},
    whole,
};

/// The text that is timed: the crate's own, unchanged.
const TEXT: &CrateText = &copies::unchanged::TEXT;

/// A whole build. Callbacks are in their plainest form.
pub struct TimedBuild<'a> {
    build: &'a Build,
    world: World,
}

impl<'a> TimedBuild<'a> {
    /// A build that is handed to the text as it stands.
    pub fn new(build: &'a Build) -> Result<Self, Outside> {
        Ok(Self { build, world: World::new(build, match_groups(build, Callbacks::Plainest))? })
    }

    /// Runs the text once, up to the sorted modules of each chunk.
    pub fn run(&self) -> Result<(Duration, ChunkGraph), Outside> {
        let (graph, _) = whole::run_text(TEXT, &self.world, self.build)?;
        Ok((took(), graph))
    }

    /// The chunk list that a run left, sizes at zero.
    pub fn list(&self, graph: &ChunkGraph) -> Result<ChunkList, Outside> {
        let mut list = whole::chunk_list(graph, self.build)?;
        marks::mark(TEXT, self.build, &mut list)?;
        Ok(list)
    }
}

/// The time of so many similarities, and the last answer.
pub fn similarities(sim: &Sim, times: u32) -> Result<(Duration, i32), Outside> {
    let (left, right) = (leaves::id_text(&sim.left)?, leaves::id_text(&sim.right)?);
    let mut answer = 0;
    clock(|| {
        for _ in 0..times {
            answer = (TEXT.similarity)(black_box(left), black_box(right));
        }
    });
    Ok((took(), answer))
}

/// A cut, with ids and sizes as the text takes them.
pub struct TimedCut<'a> {
    ids: Vec<&'a str>,
    sizes: Vec<f64>,
    limits: (f64, f64),
}

impl<'a> TimedCut<'a> {
    /// A cut that is handed to the text as it stands.
    pub fn new(cut: &'a Cut) -> Result<Self, Outside> {
        let ids = cut.modules.iter().map(|(id, _)| leaves::id_text(id));
        let sizes = cut.modules.iter().map(|(_, size)| *size as f64).collect();
        Ok(Self { ids: ids.collect::<Result<_, _>>()?, sizes, limits: (cut.minimum, cut.maximum) })
    }

    /// Runs the text so many times; the last answer is the index, if there is one.
    pub fn run(&self, times: u32) -> (Duration, Option<usize>) {
        let mut answer = None;
        clock(|| {
            for _ in 0..times {
                let (minimum, maximum) = self.limits;
                answer = (TEXT.cut)(black_box(&self.ids), &self.sizes, minimum, maximum);
            }
        });
        (took(), answer.map(|(index, _, _)| index))
    }
}

/// A merge, with subgroups that are made anew before each run, aside from the clock.
pub struct TimedMerge {
    modules: ModuleTable,
    bits: Vec<BitSet>,
    threshold: f64,
}

impl TimedMerge {
    /// A merge that is handed to the text as it stands.
    pub fn new(merge: &Merge) -> Result<Self, Outside> {
        let (modules, bits) = leaves::merge_tables(merge)?;
        Ok(Self { modules, bits, threshold: merge.threshold.unwrap_or(0.0) })
    }

    /// Runs the text once.
    pub fn run(&self) -> Result<(Duration, Vec<MergedSubgroup>), Outside> {
        let left = (TEXT.merge)(&self.modules, &self.bits, self.threshold);
        let time = took();
        Ok((time, leaves::merged(self.bits.len(), left)?))
    }
}

/// A capture.
pub struct TimedCapture {
    world: World,
    start: ModuleIdx,
    recursive: bool,
}

impl TimedCapture {
    /// A capture that is handed to the text as it stands.
    pub fn new(capture: &Capture) -> Result<Self, Outside> {
        let start = ModuleIdx::from_usize(capture.start as usize);
        Ok(Self { world: leaves::capture_world(capture)?, start, recursive: capture.recursive })
    }

    /// Runs the text once; the answer is how many modules were captured.
    pub fn run(&self) -> (Duration, usize) {
        let captured = (TEXT.capture)(&self.world, self.start, self.recursive);
        (took(), captured.len())
    }
}
