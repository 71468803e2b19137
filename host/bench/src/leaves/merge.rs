//! Merge of subgroups.

use std::{hint::black_box, time::Instant};

use gentropi::raw::{self, MergeAreas, MergeTables};
use plain_judge::timed::TimedMerge;
use text::{Damage, Merge, MergedSubgroup, Subgroup, tables};

use crate::{
    case::{Agreement, Case, Micros},
    pass,
};
use text::drawn::{drawn, word};

struct MergeCase {
    of_crate: TimedMerge,
    handed: tables::MergeTables,
    numbers: Vec<u32>,
    sizes: Vec<u64>,
    bits: Vec<u64>,
}

/// So many subgroups over 64 entries, about half of them set, which all join in the end.
pub fn with(count: u32, run: &mut dyn FnMut(&mut dyn Case)) {
    let subgroup = |number| Subgroup {
        size: u64::from(200 + drawn(73, number) % 8_800),
        bits: [word(74, number), 0, 0, 0],
    };
    let merge = Merge {
        entries: 64,
        threshold: Some(1e9),
        subgroups: (0..count).map(subgroup).collect(),
        damage: Damage::default(),
    };
    let count = merge.subgroups.len();
    run(&mut MergeCase {
        of_crate: TimedMerge::new(&merge).expect("the crate can be asked"),
        handed: tables::of_merge(&merge),
        numbers: vec![7; count],
        sizes: vec![7; count],
        bits: vec![7; 4 * count],
    });
}

/// The tables as the library takes them.
fn tables(handed: &tables::MergeTables) -> MergeTables<'_> {
    let tables::MergeTables { threshold, sizes, bits, .. } = handed;
    MergeTables { k: sizes.len(), entries: 64, sizes, bits, threshold: *threshold }
}

impl Case for MergeCase {
    fn of_crate(&mut self) -> Micros {
        self.of_crate.run().expect("the crate answers").0.as_secs_f64() * 1e6
    }

    fn of_library(&mut self) -> Micros {
        let Self { numbers, sizes, bits, .. } = self;
        let tables = tables(&self.handed);
        let begin = Instant::now();
        let number = raw::merge(black_box(&tables), MergeAreas { numbers, sizes, bits });
        let took = begin.elapsed();
        assert_eq!(number, 0, "the merge is accepted");
        took.as_secs_f64() * 1e6
    }

    fn pass(&mut self) -> Micros {
        pass::timed(8, || pass::merge(black_box(&tables(&self.handed))))
    }

    fn agreement(&mut self) -> Agreement {
        self.of_library();
        let (_, of_crate) = self.of_crate.run().expect("the crate answers");
        let (bits, _) = self.bits.as_chunks();
        let rows = self.numbers.iter().zip(&self.sizes).zip(bits);
        let merged = |((number, size), bits): ((&u32, &u64), &[u64; 4])| MergedSubgroup {
            number: *number,
            size: *size,
            bits: *bits,
        };
        if rows.map(merged).eq(of_crate) { Agreement::Same } else { Agreement::Different }
    }
}
