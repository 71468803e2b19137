//! What the areas that are lent to Chunks hold after the call, over a pattern before it.

use chunklist::{BuildAreas, Pattern};
use text::{ChunkList, tables::BuildTables};

use super::{
    refusals::scratch_need,
    rules::{Area, ReadingFault, Rules},
};

/// The content of each area as words.
#[derive(Debug, Clone, PartialEq, Eq)]
pub struct Areas {
    /// All areas but scratch, in the order of `Area::ALL`; a record's bits are four words.
    written: Vec<Vec<u64>>,
    scratch: Scratch,
}

/// Scratch is too long to be written out: it has zeros up to a place, and from there the pattern.
#[derive(Debug, Clone, PartialEq, Eq)]
struct Scratch {
    length: usize,
    zeros: usize,
}

/// Areas that can be held against those of the reading; they are numbered as in `Area::ALL`.
pub trait Words {
    fn length(&self, area: usize) -> usize;
    fn word(&self, area: usize, place: usize) -> u64;

    /// The first place of scratch that holds anything but zero below `zeros`, or but the pattern
    /// from there on.
    fn scratch_unlike(&self, zeros: usize) -> Option<usize> {
        let expected = |place: usize| if place < zeros { 0 } else { u64::at(place) };
        let scratch = Area::Scratch as usize;
        (0..self.length(scratch)).find(|place| self.word(scratch, *place) != expected(*place))
    }
}

impl Words for BuildAreas {
    fn length(&self, area: usize) -> usize {
        Self::length(self, area)
    }

    fn word(&self, area: usize, place: usize) -> u64 {
        Self::word(self, area, place)
    }

    fn scratch_unlike(&self, zeros: usize) -> Option<usize> {
        Self::scratch_unlike(self, zeros)
    }
}

/// The areas after a call. A refused one touches none of them.
pub fn after(tables: &BuildTables, outcome: Result<&ChunkList, u32>, rules: Rules) -> Areas {
    let [lengths @ .., scratch] = tables.areas;
    let mut areas = Areas {
        written: lengths.map(|length| (0..length).map(u64::at).collect()).to_vec(),
        scratch: Scratch { length: scratch, zeros: 0 },
    };
    match outcome {
        Ok(list) => areas.accepted(tables, list, rules),
        Err(_) => match rules.refused_writes() {
            Some(Area::Scratch) => areas.scratch.clear(1),
            Some(area) => areas.write(area, 0, 0),
            None => {}
        },
    }
    areas
}

impl Words for Areas {
    fn length(&self, area: usize) -> usize {
        self.written.get(area).map_or(self.scratch.length, Vec::len)
    }

    fn word(&self, area: usize, place: usize) -> u64 {
        match self.written.get(area) {
            Some(words) => words[place],
            None if place < self.scratch.zeros => 0,
            None => u64::at(place),
        }
    }
}

impl Scratch {
    /// Zeros up to a place, or as far as there is room.
    fn clear(&mut self, end: usize) {
        self.zeros = end.min(self.length);
    }
}

impl Areas {
    /// The first entry of other areas that isn't as it is here.
    pub fn differs_from(&self, other: &impl Words) -> Option<String> {
        let differs = |area: &Area| {
            let at = *area as usize;
            let end = self.length(at).min(other.length(at));
            let place = match area {
                Area::Scratch => other.scratch_unlike(self.scratch.zeros),
                _ => (0..end).find(|place| self.word(at, *place) != other.word(at, *place)),
            };
            let shorter = (self.length(at) != other.length(at)).then_some(end);
            place.or(shorter).map(|place| (*area, place))
        };
        let (area, place) = Area::ALL.iter().find_map(differs)?;
        let (there, here) = (entry(other, area, place), entry(self, area, place));
        Some(format!("{area:?}[{place}] is {there}, by the reading {here}"))
    }

    /// Writes one word, where there is room.
    fn write(&mut self, area: Area, place: usize, word: u64) {
        if let Some(written) = self.written[area as usize].get_mut(place) {
            *written = word;
        }
    }

    /// Entries past N and records past the last keep the pattern; all scratch ends as zeros.
    fn accepted(&mut self, tables: &BuildTables, list: &ChunkList, rules: Rules) {
        let (n, count) = (list.chunk_of.len(), list.chunks.len());
        for (module, chunk) in list.chunk_of.iter().enumerate() {
            self.write(Area::ChunkOf, module, u64::from(*chunk));
            self.write(Area::NextOf, module, 0);
        }
        let from = if rules.has(ReadingFault::RecordsByNumber) { tables.count_on_entry } else { 0 };
        for (record, chunk) in (from as usize..).zip(&list.chunks) {
            for pair in chunk.modules.windows(2) {
                self.write(Area::NextOf, pair[0] as usize, u64::from(pair[1]) + 1);
            }
            self.write(Area::First, record, chunk.modules.first().map_or(0, |m| u64::from(*m) + 1));
            self.write(Area::Group, record, u64::from(chunk.group));
            self.write(Area::Name, record, u64::from(chunk.name));
            self.write(Area::Size, record, chunk.size.to_bits());
            (0..4).for_each(|word| self.write(Area::Bits, 4 * record + word, chunk.bits[word]));
            self.write(Area::Mark, record, u64::from(chunk.mark));
        }
        let kept = rules.has(ReadingFault::ScratchKept);
        self.scratch.clear(if kept { scratch_need(tables, rules) as usize } else { usize::MAX });
        let ends = [n, n, count, count, count, count, 4 * count, count];
        for (area, end) in Area::ALL.into_iter().zip(ends) {
            if rules.has(ReadingFault::PastEnd(area)) {
                self.write(area, end, 0);
            }
        }
    }
}

/// An entry in a message.
fn entry(areas: &impl Words, area: Area, place: usize) -> String {
    let area = area as usize;
    let word = (place < areas.length(area)).then(|| areas.word(area, place));
    format!("{word:x?}")
}
