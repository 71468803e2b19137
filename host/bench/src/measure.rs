//! Both sides turn by turn, in series.

use crate::case::{Case, Micros};

/// How many series there are, unless one turn takes too long.
const SERIES: usize = 5;

/// How many turns a series has at most.
const TURNS: usize = 200;

/// The best and the median time of a side.
#[derive(Debug, Clone, Copy)]
pub struct Times {
    pub best: Micros,
    /// The median of the series' medians.
    pub median: Micros,
}

/// What was measured of a case.
#[derive(Debug, Clone, Copy)]
pub struct Figures {
    pub of_crate: Times,
    pub library: Times,
    pub pass: Times,
    /// The crate's time over the library's: the median of the series' median ratios.
    pub ratio: f64,
    /// The library's time over that of one pass, found likewise.
    pub passes: f64,
    /// How many series, and turns in each.
    pub series: usize,
    pub turns: usize,
}

/// One run of each side.
type Turn = [Micros; 3];

/// Times a case for so many seconds or so.
pub fn measure(case: &mut dyn Case, seconds: f64) -> Figures {
    let first = turn(case);
    let possible = seconds * 1e6 / (first[0] + first[1]);
    let series = (possible as usize).clamp(1, SERIES);
    let turns = (possible as usize / series).clamp(1, TURNS);
    let all: Vec<Vec<Turn>> =
        (0..series).map(|_| (0..turns).map(|_| turn(case)).collect()).collect();
    Figures {
        of_crate: times(&all, 0),
        library: times(&all, 1),
        pass: times(&all, 2),
        ratio: ratio(&all, 0, 1),
        passes: ratio(&all, 1, 2),
        series,
        turns,
    }
}

fn turn(case: &mut dyn Case) -> Turn {
    [case.of_crate(), case.of_library(), case.pass()]
}

/// The times of one side.
fn times(all: &[Vec<Turn>], side: usize) -> Times {
    let best = all.iter().flatten().map(|turn| turn[side]).fold(f64::INFINITY, f64::min);
    let medians = all.iter().map(|turns| median(turns.iter().map(|turn| turn[side])));
    Times { best, median: median(medians) }
}

/// One side's time over another's: the median of the series' medians.
fn ratio(all: &[Vec<Turn>], over: usize, under: usize) -> f64 {
    median(all.iter().map(|turns| median(turns.iter().map(|turn| turn[over] / turn[under]))))
}

/// The middle one, the upper of two.
fn median(numbers: impl Iterator<Item = f64>) -> f64 {
    let mut numbers: Vec<f64> = numbers.collect();
    numbers.sort_unstable_by(f64::total_cmp);
    numbers[numbers.len() / 2]
}
