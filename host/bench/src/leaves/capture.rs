//! Capture of all modules from the first.

use std::{hint::black_box, time::Instant};

use gentropi::raw::{self, CaptureTables};
use plain_judge::timed::TimedCapture;
use text::{Capture, Damage, Record, tables};

use crate::{
    case::{Agreement, Case, Micros},
    pass,
};
use shapes::{chain, chained, scattered};

/// How many modules there are.
const COUNT: u32 = 4_096;

/// How many modules an inner one of the tree depends on.
const BRANCHES: u32 = 64;

struct CaptureCase {
    of_crate: TimedCapture,
    handed: tables::CaptureTables,
    marks: Vec<u8>,
    scratch: Vec<u32>,
}

/// Each module depends on the next.
pub fn along(run: &mut dyn FnMut(&mut dyn Case)) {
    let record = |number| Record { module: number, next: 0 };
    let first = (1..COUNT).chain([0]).collect();
    with(first, (1..COUNT).map(record).collect(), run);
}

/// Each module has a parent, and each inner one 64 children.
pub fn tree(run: &mut dyn FnMut(&mut dyn Case)) {
    let (mut first, mut records) = (Vec::new(), Vec::new());
    for number in 0..COUNT {
        let from = number * BRANCHES + 1;
        let children: Vec<u32> = (from..from + BRANCHES).filter(|child| *child < COUNT).collect();
        first.push(if children.is_empty() { 0 } else { records.len() as u32 + 1 });
        chain(&mut records, &children);
    }
    with(first, records, run);
}

/// Sixteen records for each module, one less in all.
pub fn graph(run: &mut dyn FnMut(&mut dyn Case)) {
    with((1..=COUNT).collect(), scattered(COUNT), run);
}

/// Each module begins with record 1.
pub fn shared(run: &mut dyn FnMut(&mut dyn Case)) {
    with(vec![1; COUNT as usize], chained(COUNT), run);
}

fn with(first: Vec<u32>, records: Vec<Record>, run: &mut dyn FnMut(&mut dyn Case)) {
    let (flags, damage) = (vec![3; first.len()], Damage::default());
    let capture = Capture { recursive: true, start: 0, flags, first, records, damage };
    run(&mut CaptureCase {
        of_crate: TimedCapture::new(&capture).expect("the crate can be asked"),
        handed: tables::of_capture(&capture),
        marks: vec![7; COUNT as usize],
        scratch: vec![7; COUNT as usize],
    });
}

/// The tables as the library takes them.
fn tables(handed: &tables::CaptureTables) -> CaptureTables<'_> {
    CaptureTables {
        n: handed.flags.len(),
        d: handed.dep_next.len() - 1,
        recursive: handed.recursive,
        start: handed.start,
        flags: &handed.flags,
        first: &handed.first,
        dependency: &handed.dep_module,
        next: &handed.dep_next,
    }
}

impl Case for CaptureCase {
    fn of_crate(&mut self) -> Micros {
        self.of_crate.run().0.as_secs_f64() * 1e6
    }

    fn of_library(&mut self) -> Micros {
        let tables = tables(&self.handed);
        let begin = Instant::now();
        let number = raw::capture(black_box(&tables), &mut self.marks, &mut self.scratch);
        let took = begin.elapsed();
        assert_eq!(number, 0, "the capture is accepted");
        took.as_secs_f64() * 1e6
    }

    fn pass(&mut self) -> Micros {
        pass::timed(8, || pass::capture(black_box(&tables(&self.handed))))
    }

    /// Every module is captured, so that their count says all.
    fn agreement(&mut self) -> Agreement {
        self.of_library();
        let captured = self.marks.iter().filter(|mark| **mark == 1).count();
        let all = captured == self.marks.len();
        if all && self.of_crate.run().1 == captured {
            Agreement::Same
        } else {
            Agreement::Different
        }
    }
}
