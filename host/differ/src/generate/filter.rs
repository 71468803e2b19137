//! Questions for Filter.

use text::{Filter, Question};

use super::{
    Visit,
    numbers::{TOTAL, limit_near},
};
use crate::rng::Rng;

/// All of a few masks, tags, limits, sizes and share counts.
pub fn exhaustive(visit: Visit<'_>) {
    let limits: Vec<Option<f64>> = [None]
        .into_iter()
        .chain([f64::NEG_INFINITY, -0.0, 1.0, 1.5, 2.0, f64::INFINITY].map(Some))
        .collect();
    for tags in 0..16 {
        for &min_module_size in &limits {
            for &max_module_size in &limits {
                for size in 0..4 {
                    for shares in 0..9 {
                        visit(Question::Filter(Filter {
                            mask: tags / 4,
                            min_module_size,
                            max_module_size,
                            min_share_count: (shares % 3 > 0).then_some(shares % 3),
                            tags: tags % 4,
                            size,
                            share_count: shares / 3,
                        }));
                    }
                }
            }
        }
    }
}

/// A module close to the limits.
pub fn random(rng: &mut Rng) -> Filter {
    let size = match rng.below(4) {
        0 => rng.below(4),
        1 => TOTAL - rng.below(3),
        2 => rng.below(TOTAL),
        _ => rng.below(1_000),
    };
    let share_count = rng.pick(&[0, 1, 2, 3, 256, u32::MAX - 1, u32::MAX]);
    let near = [share_count, share_count.saturating_add(1), share_count.saturating_sub(1), 0];
    let mask = mask(rng);
    Filter {
        mask,
        min_module_size: (!rng.one_in(3)).then(|| limit_near(rng, &[size])),
        max_module_size: (!rng.one_in(3)).then(|| limit_near(rng, &[size])),
        min_share_count: (!rng.one_in(3)).then(|| rng.pick(&near)),
        tags: tags(rng, mask),
        size,
        share_count,
    }
}

/// A mask: often none, or a bit or two, also the highest.
pub fn mask(rng: &mut Rng) -> u64 {
    match rng.below(4) {
        0 => 0,
        1 => 1 << rng.below(64),
        2 => 1 << rng.below(64) | 1 << rng.below(64) | 1 << 63,
        _ => rng.word() & rng.word(),
    }
}

/// Tags that often contain the mask, or lack one bit of it.
pub fn tags(rng: &mut Rng, mask: u64) -> u64 {
    let more = mask | rng.word() & rng.word();
    match rng.below(4) {
        0 => mask,
        1 => more & !(1 << rng.below(64)),
        2 => mask & (mask.wrapping_sub(1)),
        _ => more,
    }
}
