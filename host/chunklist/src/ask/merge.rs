//! Merge of subgroups.

use gentropi::raw::{self, MergeAreas, MergeTables};
use text::{Answer, Merge, MergedSubgroup, tables};

use super::{Asked, count};
use crate::Lent;

/// The areas of a merge.
struct Areas {
    numbers: Lent<u32>,
    sizes: Lent<u64>,
    /// Four words for each subgroup.
    bits: Lent<u64>,
}

pub fn ask(merge: &Merge) -> Asked {
    let handed = tables::of_merge(merge);
    let tables = MergeTables {
        k: count(handed.k),
        entries: count(handed.e),
        sizes: &handed.sizes,
        bits: &handed.bits,
        threshold: handed.threshold,
    };
    let mut areas = Areas::new(handed.areas);
    let number = raw::merge(&tables, areas.lend());
    if number != 0 {
        return Asked::refused(number, areas.untouched());
    }
    Asked::answered(Answer::Merge(areas.subgroups(tables.k)), areas.kept_past(tables.k))
}

impl Areas {
    /// Areas for so many subgroups each.
    fn new(entries: [usize; 3]) -> Self {
        let [numbers, sizes, bits] = entries;
        Self {
            numbers: Lent::new("numbers", numbers),
            sizes: Lent::new("sizes", sizes),
            bits: Lent::new("bits", 4 * bits),
        }
    }

    fn lend(&mut self) -> MergeAreas<'_> {
        let Self { numbers, sizes, bits } = self;
        MergeAreas { numbers: numbers.lend(), sizes: sizes.lend(), bits: bits.lend() }
    }

    /// What is wrong after a refusal.
    fn untouched(&self) -> [Option<String>; 3] {
        [self.numbers.untouched(), self.sizes.untouched(), self.bits.untouched()]
    }

    /// What is wrong after a merge of `k` subgroups.
    fn kept_past(&self, k: usize) -> [Option<String>; 3] {
        let Self { numbers, sizes, bits } = self;
        [numbers.kept_past(k), sizes.kept_past(k), bits.kept_past(k.saturating_mul(4))]
    }

    /// The first `k` subgroups.
    fn subgroups(&self, k: usize) -> Vec<MergedSubgroup> {
        let (rows, _) = self.bits.first(k.saturating_mul(4)).as_chunks::<4>();
        let numbered = self.numbers.first(k).iter().zip(self.sizes.first(k)).zip(rows);
        let row = |((number, size), bits): ((&u32, &u64), &[u64; 4])| MergedSubgroup {
            number: *number,
            size: *size,
            bits: *bits,
        };
        numbered.map(row).collect()
    }
}
