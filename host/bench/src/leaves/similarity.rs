//! Similarity of two ids.

use std::{hint::black_box, time::Instant};

use gentropi::raw;
use plain_judge::timed::similarities;
use text::Sim;

use crate::{
    case::{Agreement, Case, Micros},
    pass,
};
use text::drawn::drawn;

/// How many calls are timed at once.
const TIMES: u32 = 1_000;

struct Similarity(Sim);

/// Two ids of a length, of which two bytes in three are alike.
pub fn with(length: u32, run: &mut dyn FnMut(&mut dyn Case)) {
    let letter = |stream, place| b'a' + (drawn(stream, place) % 26) as u8;
    let left: Vec<u8> = (0..length).map(|place| letter(70, place)).collect();
    let other = |place: u32| letter(if place.is_multiple_of(3) { 71 } else { 70 }, place);
    let right = (0..length).map(other).collect();
    run(&mut Similarity(Sim { left, right }));
}

impl Similarity {
    fn score(&self) -> u32 {
        let mut score = 0;
        let Sim { left, right } = &self.0;
        assert_eq!(raw::similarity(black_box(left), black_box(right), &mut score), 0);
        score
    }
}

impl Case for Similarity {
    fn of_crate(&mut self) -> Micros {
        let (took, _) = similarities(&self.0, TIMES).expect("ids are texts");
        took.as_secs_f64() * 1e6 / f64::from(TIMES)
    }

    fn of_library(&mut self) -> Micros {
        let begin = Instant::now();
        for _ in 0..TIMES {
            black_box(self.score());
        }
        begin.elapsed().as_secs_f64() * 1e6 / f64::from(TIMES)
    }

    fn pass(&mut self) -> Micros {
        pass::timed(TIMES, || pass::ids(black_box(&self.0.left), black_box(&self.0.right)))
    }

    fn agreement(&mut self) -> Agreement {
        let (_, score) = similarities(&self.0, 1).expect("ids are texts");
        if u32::try_from(score) == Ok(self.score()) {
            Agreement::Same
        } else {
            Agreement::Different
        }
    }
}
