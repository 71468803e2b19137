//! Cut of modules in id order.

use std::{hint::black_box, time::Instant};

use gentropi::raw::{self, CutPlaces, CutTables};
use plain_judge::timed::TimedCut;
use text::{Cut, Damage, tables};

use crate::{
    case::{Agreement, Case, Micros},
    pass,
};
use text::drawn::drawn;

/// How many calls are timed at once.
const TIMES: u32 = 8;

struct CutCase<'a> {
    of_crate: TimedCut<'a>,
    handed: tables::CutTables,
}

/// So many modules with ids of a length: folders of 20, and a maximum of half of everything.
pub fn with(count: u32, length: usize, run: &mut dyn FnMut(&mut dyn Case)) {
    let id = |number: u32| format!("{:-<length$}", format!("src/{:03}/{number:04}", number / 20));
    let module = |number| (id(number).into_bytes(), u64::from(200 + drawn(72, number) % 8_800));
    let modules: Vec<(Vec<u8>, u64)> = (0..count).map(module).collect();
    let total: u64 = modules.iter().map(|(_, size)| size).sum();
    let cut =
        Cut { minimum: 1_000.0, maximum: total as f64 / 2.0, modules, damage: Damage::default() };
    let of_crate = TimedCut::new(&cut).expect("ids are texts");
    run(&mut CutCase { of_crate, handed: tables::of_cut(&cut) });
}

impl CutCase<'_> {
    fn tables(&self) -> CutTables<'_> {
        let tables::CutTables { minimum, maximum, ids, offsets, sizes, .. } = &self.handed;
        let (minimum, maximum) = (*minimum, *maximum);
        CutTables { n: sizes.len(), bytes: ids, offsets, sizes, minimum, maximum }
    }

    fn places(&self) -> CutPlaces {
        let mut places = CutPlaces::default();
        assert_eq!(raw::cut(black_box(&self.tables()), &mut places), 0);
        places
    }
}

impl Case for CutCase<'_> {
    fn of_crate(&mut self) -> Micros {
        self.of_crate.run(TIMES).0.as_secs_f64() * 1e6 / f64::from(TIMES)
    }

    fn of_library(&mut self) -> Micros {
        let begin = Instant::now();
        for _ in 0..TIMES {
            black_box(self.places());
        }
        begin.elapsed().as_secs_f64() * 1e6 / f64::from(TIMES)
    }

    fn pass(&mut self) -> Micros {
        pass::timed(TIMES, || pass::cut(black_box(&self.tables())))
    }

    fn agreement(&mut self) -> Agreement {
        let places = self.places();
        let found = (places.why_none == 0).then_some(places.index);
        if self.of_crate.run(1).1 == found { Agreement::Same } else { Agreement::Different }
    }
}
