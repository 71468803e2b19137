//! One pass over tables: every entry is added once.

use std::{hint::black_box, time::Instant};

use gentropi::raw::{CaptureTables, ChunksTables, CutTables, GroupTables, MergeTables};

use crate::case::Micros;

/// An entry of a table.
trait Entry: Copy {
    fn word(self) -> u64;
}

impl Entry for u8 {
    fn word(self) -> u64 {
        u64::from(self)
    }
}

impl Entry for u32 {
    fn word(self) -> u64 {
        u64::from(self)
    }
}

impl Entry for u64 {
    fn word(self) -> u64 {
        self
    }
}

impl Entry for f64 {
    fn word(self) -> u64 {
        self.to_bits()
    }
}

/// The sum of a table.
fn sum<E: Entry>(table: &[E]) -> u64 {
    table.iter().fold(0, |sum, entry| sum.wrapping_add(entry.word()))
}

/// The time of a pass, for each of so many.
pub fn timed(times: u32, mut pass: impl FnMut() -> u64) -> Micros {
    let begin = Instant::now();
    for _ in 0..times {
        black_box(pass());
    }
    begin.elapsed().as_secs_f64() * 1e6 / f64::from(times)
}

/// Over the tables of a whole build.
pub fn build(tables: &ChunksTables<'_>) -> u64 {
    [
        sum(tables.flags),
        sum(tables.sizes),
        sum(tables.orders),
        sum(tables.shares),
        sum(tables.tags),
        sum(tables.bits),
        sum(tables.bytes),
        sum(tables.offsets),
        sum(tables.first),
        sum(tables.dependency),
        sum(tables.next),
        groups(&tables.groups),
        sum(tables.answers),
    ]
    .into_iter()
    .fold(0, u64::wrapping_add)
}

fn groups(tables: &GroupTables<'_>) -> u64 {
    [
        sum(tables.given),
        sum(tables.min_size),
        sum(tables.max_size),
        sum(tables.min_module_size),
        sum(tables.max_module_size),
        sum(tables.min_share_count),
        sum(tables.tags),
        sum(tables.priority),
        sum(tables.threshold),
    ]
    .into_iter()
    .fold(0, u64::wrapping_add)
}

/// Over two ids.
pub fn ids(left: &[u8], right: &[u8]) -> u64 {
    sum(left).wrapping_add(sum(right))
}

/// Over the tables of a cut.
pub fn cut(tables: &CutTables<'_>) -> u64 {
    sum(tables.bytes).wrapping_add(sum(tables.offsets)).wrapping_add(sum(tables.sizes))
}

/// Over the tables of a merge.
pub fn merge(tables: &MergeTables<'_>) -> u64 {
    sum(tables.sizes).wrapping_add(sum(tables.bits))
}

/// Over the tables of a capture.
pub fn capture(tables: &CaptureTables<'_>) -> u64 {
    let modules = sum(tables.flags).wrapping_add(sum(tables.first));
    modules.wrapping_add(sum(tables.dependency)).wrapping_add(sum(tables.next))
}
