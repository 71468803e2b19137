//! Chunks of a whole build.

use gentropi::{
    GroupBuf, Mark,
    raw::{self, ChunksAreas, ChunksTables, GroupTables},
};
use text::{Answer, Chunk, ChunkList, Chunks, Group, Options, tables, tables::BuildTables};

use super::{Asked, count, fitted_groups::fitted};
use crate::{Lent, Pattern};

/// What came of a whole build, and the areas that were lent to the call.
#[derive(Debug, Clone)]
pub struct AskedBuild {
    /// The answer, and what the areas show to be wrong.
    pub asked: Asked,
    /// The areas after the call.
    pub areas: BuildAreas,
}

/// A whole build laid out for the call: its tables, and areas as long as it says, with a pattern in
/// them.
pub struct ReadyBuild {
    handed: BuildTables,
    groups: GroupBuf,
    areas: BuildAreas,
}

impl ReadyBuild {
    /// Lays a build out.
    pub fn new(chunks: &Chunks) -> Self {
        let handed = tables::of_chunks(chunks);
        let groups = fitted(handed.groups.iter().map(group).collect(), &chunks.damage);
        let areas = BuildAreas::new(handed.areas);
        Self { handed, groups, areas }
    }

    /// Makes the call and does nothing else. Answers 0 or the number of the refusal.
    pub fn call(&mut self) -> u32 {
        raw::chunks(&raw_tables(&self.handed, self.groups.as_tables()), self.areas.lend())
    }
}

/// The areas of a whole build.
#[derive(Debug, Clone)]
pub struct BuildAreas {
    chunk_of: Lent<u32>,
    next_of: Lent<u32>,
    first_of: Lent<u32>,
    group_of: Lent<u32>,
    name_of: Lent<u32>,
    size_of: Lent<f64>,
    /// Four words for each record.
    bits_of: Lent<u64>,
    mark_of: Lent<u8>,
    scratch: Lent<u32>,
    count: Lent<usize>,
}

/// Lends areas as long as a build says, with a pattern in them, calls, and looks at them.
pub fn ask_build(chunks: &Chunks) -> AskedBuild {
    let mut ready = ReadyBuild::new(chunks);
    let number = ready.call();
    let ReadyBuild { handed, areas, .. } = ready;
    let n = count(handed.n);
    let asked = if number != 0 {
        Asked::refused(number, areas.untouched())
    } else {
        let (list, broken) = areas.list(n, count(handed.count_on_entry));
        let mut asked = Asked::answered(Answer::Chunks(list), areas.kept_past(n));
        asked.warnings.extend(broken);
        asked
    };
    AskedBuild { asked, areas }
}

/// The tables as the library takes them.
pub fn raw_tables<'a>(handed: &'a BuildTables, groups: GroupTables<'a>) -> ChunksTables<'a> {
    ChunksTables {
        n: count(handed.n),
        g: count(handed.g),
        e: count(handed.e),
        k: count(handed.k),
        d: count(handed.d),
        flags: &handed.flags,
        sizes: &handed.sizes,
        orders: &handed.orders,
        shares: &handed.shares,
        tags: &handed.tags,
        bits: &handed.bits,
        bytes: &handed.ids,
        offsets: &handed.offsets,
        first: &handed.first,
        dependency: &handed.dep_module,
        next: &handed.dep_next,
        options: options(&handed.options).numbers(),
        groups,
        answers: &handed.answers,
        on_entry: count(handed.count_on_entry),
    }
}

fn options(options: &Options) -> gentropi::Options {
    gentropi::Options {
        min_size: options.min_size,
        max_size: options.max_size,
        min_module_size: options.min_module_size,
        max_module_size: options.max_module_size,
        min_share_count: options.min_share_count,
        recursive: options.recursive,
    }
}

/// A group; an absent priority or threshold is 0.
pub fn group(group: &Group) -> gentropi::Group {
    gentropi::Group {
        options: options(&group.options),
        tags: group.mask,
        priority: group.priority.unwrap_or(0),
        entries_aware: group.entries_aware == Some(true),
        threshold: group.threshold.unwrap_or(0.0),
    }
}

impl BuildAreas {
    /// Areas of so many items, in the order of the call.
    fn new(lengths: [usize; 9]) -> Self {
        let [chunk_of, next_of, first_of, group_of, name_of, size_of, bits_of, mark_of, scratch] =
            lengths;
        Self {
            chunk_of: Lent::new("chunk_of", chunk_of),
            next_of: Lent::new("next_of", next_of),
            first_of: Lent::new("first_of", first_of),
            group_of: Lent::new("group_of", group_of),
            name_of: Lent::new("name_of", name_of),
            size_of: Lent::new("size_of", size_of),
            bits_of: Lent::new("bits_of", bits_of),
            mark_of: Lent::new("mark_of", mark_of),
            scratch: Lent::new("scratch", scratch),
            count: Lent::new("count", 1),
        }
    }

    fn lend(&mut self) -> ChunksAreas<'_> {
        ChunksAreas {
            chunk_of: self.chunk_of.lend(),
            next_of: self.next_of.lend(),
            first_of: self.first_of.lend(),
            group_of: self.group_of.lend(),
            name_of: self.name_of.lend(),
            size_of: self.size_of.lend(),
            bits_of: self.bits_of.lend(),
            mark_of: self.mark_of.lend(),
            scratch: self.scratch.lend(),
            count: &mut self.count.lend()[0],
        }
    }

    /// The count that the call wrote.
    fn count(&self) -> usize {
        self.count.first(1)[0]
    }

    /// What is wrong after a refusal.
    fn untouched(&self) -> [Option<String>; 10] {
        [
            self.chunk_of.untouched(),
            self.next_of.untouched(),
            self.first_of.untouched(),
            self.group_of.untouched(),
            self.name_of.untouched(),
            self.size_of.untouched(),
            self.bits_of.untouched(),
            self.mark_of.untouched(),
            self.scratch.untouched(),
            self.count.untouched(),
        ]
    }

    /// What is wrong after an acceptance with `n` modules.
    fn kept_past(&self, n: usize) -> [Option<String>; 10] {
        let count = self.count();
        [
            self.chunk_of.kept_past(n),
            self.next_of.kept_past(n),
            self.first_of.kept_past(count),
            self.group_of.kept_past(count),
            self.name_of.kept_past(count),
            self.size_of.kept_past(count),
            self.bits_of.kept_past(count.saturating_mul(4)),
            self.mark_of.kept_past(count),
            self.no_mark(count),
            self.scratch.zeros(),
        ]
    }

    /// What is wrong if one of the first `count` marks is none that there is.
    fn no_mark(&self, count: usize) -> Option<String> {
        let marks = self.mark_of.first(count);
        let place = marks.iter().position(|mark| Mark::numbered(*mark).is_none())?;
        Some(format!("mark_of[{place}] is {}, which is no mark", marks[place]))
    }

    /// The new chunks, and what is wrong if the chain of one doesn't end.
    fn list(&self, n: usize, on_entry: usize) -> (ChunkList, Vec<String>) {
        let (mut chunks, mut broken) = (Vec::new(), Vec::new());
        let records = self.first_of.first(self.count()).len();
        for record in 0..records {
            let modules = self.chain(self.first_of.first(records)[record], n);
            if modules.is_none() {
                broken.push(format!("the chain of record {record} leaves the modules"));
            }
            let bits = self.bits_of.first(4 * records);
            chunks.push(Chunk {
                chunk: u32::try_from(on_entry + record).unwrap_or(u32::MAX),
                group: self.group_of.first(records)[record],
                name: self.name_of.first(records)[record],
                size: self.size_of.first(records)[record],
                bits: std::array::from_fn(|word| bits[4 * record + word]),
                mark: self.mark_of.first(records)[record],
                modules: modules.unwrap_or_default(),
            });
        }
        (ChunkList { chunks, chunk_of: self.chunk_of.first(n).to_vec() }, broken)
    }

    /// The modules of a chain, if it ends and names nothing else.
    fn chain(&self, first: u32, n: usize) -> Option<Vec<u32>> {
        let next_of = self.next_of.first(n);
        let (mut modules, mut next) = (Vec::new(), first);
        while let Some(module) = next.checked_sub(1) {
            if modules.len() == n {
                return None;
            }
            next = *next_of.get(module as usize)?;
            modules.push(module);
        }
        Some(modules)
    }

    /// How long an area is. Areas are numbered in the order of the call, without the count.
    pub fn length(&self, area: usize) -> usize {
        match area {
            0 => self.chunk_of.length(),
            1 => self.next_of.length(),
            2 => self.first_of.length(),
            3 => self.group_of.length(),
            4 => self.name_of.length(),
            5 => self.size_of.length(),
            6 => self.bits_of.length(),
            7 => self.mark_of.length(),
            _ => self.scratch.length(),
        }
    }

    /// An item of an area as a word; if it still holds its pattern, that of words.
    pub fn word(&self, area: usize, place: usize) -> u64 {
        match area {
            0 => self.chunk_of.word(place),
            1 => self.next_of.word(place),
            2 => self.first_of.word(place),
            3 => self.group_of.word(place),
            4 => self.name_of.word(place),
            5 => self.size_of.word(place),
            6 => self.bits_of.word(place),
            7 => self.mark_of.word(place),
            _ => self.scratch.word(place),
        }
    }

    /// The first place of scratch that holds anything but zero below `zeros`, or but its pattern
    /// from there on.
    pub fn scratch_unlike(&self, zeros: usize) -> Option<usize> {
        self.scratch.unlike(zeros)
    }
}

impl Pattern for usize {
    fn at(place: usize) -> Self {
        count(u64::at(place))
    }

    fn word(self) -> u64 {
        self as u64
    }
}

#[cfg(test)]
mod tests {
    use super::BuildAreas;

    /// Areas of two items, with these marks in them.
    fn marked(marks: [u8; 2]) -> BuildAreas {
        let mut areas = BuildAreas::new([2, 2, 2, 2, 2, 2, 8, 2, 0]);
        areas.lend().mark_of.copy_from_slice(&marks);
        areas
    }

    #[test]
    fn a_mark_that_there_is_not_is_told() {
        assert_eq!(marked([0, 2]).no_mark(2), None);
        assert_eq!(marked([1, 3]).no_mark(1), None);
        let message = "mark_of[1] is 3, which is no mark";
        assert_eq!(marked([1, 3]).no_mark(2).as_deref(), Some(message));
    }

    #[test]
    fn marks_that_a_call_must_not_write_are_told() {
        let mut areas = BuildAreas::new([2, 2, 2, 2, 2, 2, 8, 2, 0]);
        assert_eq!(areas.untouched().into_iter().flatten().count(), 0);
        areas.lend().mark_of[1] = 0;
        let refused = "mark_of[1] was written by a refused call";
        assert_eq!(areas.untouched().into_iter().flatten().collect::<Vec<_>>(), [refused]);
        areas.lend().mark_of[0] = 0;
        *areas.lend().count = 1;
        let past = "mark_of[1] was written past the end at 1";
        assert_eq!(areas.kept_past(2).into_iter().flatten().collect::<Vec<_>>(), [past]);
    }
}
