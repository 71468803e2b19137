//! Questions for Cut.

use text::{Cut, Damage, Question};

use super::{
    Visit, ids,
    numbers::{limit_near, partial_sums, sizes},
};
use crate::rng::Rng;

/// All lists of up to four modules of a few ids and sizes, with a few limits.
pub fn exhaustive(visit: Visit<'_>) {
    let ids: [&[u8]; 3] = [b"aa", b"ak", b"v"];
    for count in 0..=4_u32 {
        for code in 0..9_usize.pow(count) {
            let module = |at: u32| {
                let digit = code / 9_usize.pow(at) % 9;
                (ids[digit % 3].to_vec(), [0, 1, 2][digit / 3])
            };
            let modules: Vec<(Vec<u8>, u64)> = (0..count).map(module).collect();
            for minimum in [0.0, 1.0, 2.0] {
                for maximum in [0.0, 1.0, 3.0] {
                    visit(Question::Cut(Cut {
                        minimum,
                        maximum,
                        modules: modules.clone(),
                        damage: Damage::default(),
                    }));
                }
            }
        }
    }
}

/// A list of modules with limits close to the sizes of its parts.
pub fn random(rng: &mut Rng) -> Cut {
    let count = rng.pick(&[0, 1, 2, 2, 3, 3, 4, 5, 6, 8, 12, 20]);
    let ids = match rng.below(4) {
        0 if rng.one_in(8) => (0..count).map(|_| ids::any_bytes(rng, 6)).collect(),
        0 => (0..count).map(|_| ids::plain(rng, 4)).collect(),
        _ => ids::row(rng, count),
    };
    let sizes = sizes(rng, count);
    let sums = partial_sums(&sizes);
    let half: Vec<u64> = sums.iter().map(|sum| sum / 2).collect();
    let minimum = match rng.below(4) {
        0 => 0.0,
        1 => limit_near(rng, &half),
        _ => limit_near(rng, &sums),
    };
    let maximum = limit_near(rng, &sums);
    let modules = ids.into_iter().zip(sizes).collect();
    Cut { minimum, maximum, modules, damage: Damage::default() }
}
