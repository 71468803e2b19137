//! A whole build on both sides.

use std::{hint::black_box, time::Instant};

use chunklist::{ask_build, group, raw_tables};
use gentropi::{
    GroupBuf,
    raw::{self, ChunksAreas},
};
use plain_judge::timed::TimedBuild;
use text::{
    Answer, Build, Chunk, ChunkList, Chunks, Damage,
    tables::{self, BuildTables},
};

use crate::{
    case::{Agreement, Case, Micros},
    pass,
};

/// How many passes are timed at once: one is short.
const PASSES: u32 = 8;

/// A build that both sides can be asked about.
pub struct Whole<'a> {
    chunks: &'a Chunks,
    of_crate: TimedBuild<'a>,
    library: Library,
    /// How many (group, name) pairs there are.
    pub pairs: usize,
}

/// A build without damage.
pub fn undamaged(build: Build) -> Chunks {
    Chunks { build, damage: Damage::default() }
}

impl<'a> Whole<'a> {
    /// Makes a build ready on both sides.
    pub fn new(chunks: &'a Chunks) -> Self {
        let build = &chunks.build;
        let words = tables::scratch_need(build);
        Self {
            chunks,
            of_crate: TimedBuild::new(build).expect("the crate can be asked"),
            library: Library::new(chunks),
            pairs: (words / build.modules.len()).saturating_sub(32),
        }
    }

    /// How many chunks the library makes.
    pub fn count(&self) -> usize {
        self.library.count
    }
}

impl Case for Whole<'_> {
    fn of_crate(&mut self) -> Micros {
        let (took, graph) = self.of_crate.run().expect("the crate answers");
        black_box(&graph);
        took.as_secs_f64() * 1e6
    }

    fn of_library(&mut self) -> Micros {
        self.library.run()
    }

    fn pass(&mut self) -> Micros {
        let tables = raw_tables(&self.library.handed, self.library.groups.as_tables());
        pass::timed(PASSES, || pass::build(black_box(&tables)))
    }

    fn agreement(&mut self) -> Agreement {
        let asked = ask_build(self.chunks).asked;
        let Ok(Answer::Chunks(library)) = asked.outcome else { return Agreement::Different };
        let (_, graph) = self.of_crate.run().expect("the crate answers");
        let of_crate = self.of_crate.list(&graph).expect("the crate's chunks can be read");
        if asked.warnings.is_empty() && sizes_add(&library, &self.chunks.build) {
            agreement(library, of_crate)
        } else {
            Agreement::Different
        }
    }
}

/// Whether each chunk's size is that of its modules; the crate's chunks don't carry theirs.
fn sizes_add(list: &ChunkList, build: &Build) -> bool {
    let size = |module: &u32| build.modules[*module as usize].size as f64;
    list.chunks.iter().all(|chunk| chunk.size == chunk.modules.iter().map(size).sum::<f64>())
}

/// Holds the two lists against each other, then the chunks in the order of their modules.
fn agreement(mut library: ChunkList, mut of_crate: ChunkList) -> Agreement {
    library.chunks.iter_mut().for_each(|chunk| chunk.size = 0.0);
    if library == of_crate {
        return Agreement::Same;
    }
    let unnumbered = |list: &mut ChunkList| {
        list.chunks.iter_mut().for_each(|chunk| chunk.chunk = 0);
        list.chunks.sort_by_key(|chunk: &Chunk| chunk.modules.clone());
    };
    unnumbered(&mut library);
    unnumbered(&mut of_crate);
    if library.chunks == of_crate.chunks { Agreement::SameChunks } else { Agreement::Different }
}

/// The library with its tables, and areas that are written already, so that a call doesn't wait
/// for fresh memory.
pub struct Library {
    handed: BuildTables,
    groups: GroupBuf,
    words: [Vec<u32>; 5],
    sizes: Vec<f64>,
    bits: Vec<u64>,
    marks: Vec<u8>,
    scratch: Vec<u32>,
    count: usize,
}

impl Library {
    /// Makes a build ready.
    pub fn new(chunks: &Chunks) -> Self {
        let handed = tables::of_chunks(chunks);
        let [chunk_of, next_of, first_of, group_of, name_of, size_of, bits_of, mark_of, scratch] =
            handed.areas;
        Self {
            groups: handed.groups.iter().map(group).collect(),
            handed,
            words: [chunk_of, next_of, first_of, group_of, name_of].map(|length| vec![7; length]),
            sizes: vec![7.0; size_of],
            bits: vec![7; bits_of],
            marks: vec![7; mark_of],
            scratch: vec![7; scratch],
            count: 0,
        }
    }

    /// Calls the library once.
    pub fn run(&mut self) -> Micros {
        let tables = raw_tables(&self.handed, self.groups.as_tables());
        let [chunk_of, next_of, first_of, group_of, name_of] = &mut self.words;
        let areas = ChunksAreas {
            chunk_of,
            next_of,
            first_of,
            group_of,
            name_of,
            size_of: &mut self.sizes,
            bits_of: &mut self.bits,
            mark_of: &mut self.marks,
            scratch: &mut self.scratch,
            count: &mut self.count,
        };
        let begin = Instant::now();
        let number = raw::chunks(&tables, areas);
        let took = begin.elapsed();
        assert_eq!(number, 0, "the build is accepted");
        took.as_secs_f64() * 1e6
    }
}
