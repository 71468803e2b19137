//! Questions for Merge.

use text::{Damage, Merge, Question, Subgroup};

use super::{
    Visit,
    numbers::{limit_near, sizes},
};
use crate::rng::Rng;

/// All of up to four subgroups of two entries and a few sizes, with a few thresholds.
pub fn exhaustive(visit: Visit<'_>) {
    for (count, kinds) in [(0, 1_u64), (1, 16), (2, 16), (3, 16), (4, 12)] {
        for code in 0..kinds.pow(count) {
            let subgroup = |at: u32| {
                let digit = code / kinds.pow(at) % kinds;
                Subgroup { size: digit / 4, bits: [digit % 4, 0, 0, 0] }
            };
            let subgroups: Vec<Subgroup> = (0..count).map(subgroup).collect();
            for threshold in [0.0, 1.0, 2.0, 3.0, 4.5, f64::INFINITY] {
                visit(question(2, threshold, subgroups.clone()));
            }
        }
    }
}

fn question(entries: u64, threshold: f64, subgroups: Vec<Subgroup>) -> Question {
    let damage = Damage::default();
    Question::Merge(Merge { entries, threshold: Some(threshold), subgroups, damage })
}

/// Subgroups with a threshold close to a size or to the sum of two.
pub fn random(rng: &mut Rng) -> Merge {
    let count = rng.pick(&[0, 1, 2, 2, 3, 3, 4, 5, 6, 8, 12, 16]);
    let entries = entries(rng);
    let sizes = sizes(rng, count);
    let mut sums = sizes.clone();
    for _ in 0..count {
        let pair = rng.pick(&sizes) + rng.pick(&sizes);
        sums.push(pair);
        sums.push(pair + rng.pick(&sizes));
    }
    let threshold = limit_near(rng, &sums);
    let dense = rng.pick(&[1, 2, 3, 6]);
    let subgroup = |size| Subgroup { size, bits: bits(rng, entries, dense) };
    let subgroups = sizes.into_iter().map(subgroup).collect();
    let threshold = Some(threshold);
    Merge { entries, threshold, subgroups, damage: Damage::default() }
}

/// A count of entries: few, or close to the edges of the words.
pub fn entries(rng: &mut Rng) -> u64 {
    rng.pick(&[1, 2, 2, 3, 3, 4, 5, 63, 64, 65, 128, 129, 192, 193, 255, 256, 256])
}

/// Entry bits: up to so many, often the lowest or the highest, below the count.
pub fn bits(rng: &mut Rng, entries: u64, most: u64) -> [u64; 4] {
    let mut words = [0; 4];
    for _ in 0..rng.between(0, most) {
        let near = [0, 1, 2, 63, 64, 127, 128, 191, 192, 255, entries - 1, rng.below(entries)];
        let bit = rng.pick(&near);
        if bit < entries {
            words[bit as usize / 64] |= 1 << (bit % 64);
        }
    }
    words
}
