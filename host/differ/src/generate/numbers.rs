//! Sizes and limits.

use crate::rng::Rng;

/// The largest total of sizes.
pub const TOTAL: u64 = 1 << 53;

/// Sizes of so many modules or subgroups, which add to at most 2^53.
pub fn sizes(rng: &mut Rng, count: usize) -> Vec<u64> {
    let most = rng.pick(&[0, 1, 2, 3, 5, 5, 10, 10, 20, 40, 1_000, TOTAL]);
    if most == TOTAL {
        return large_sizes(rng, count);
    }
    let zeros = rng.pick(&[2, 4, 100]);
    (0..count).map(|_| if rng.one_in(zeros) { 0 } else { rng.between(0, most) }).collect()
}

/// Sizes that add to 2^53 exactly, or to a little less.
fn large_sizes(rng: &mut Rng, count: usize) -> Vec<u64> {
    let mut rest = TOTAL - rng.pick(&[0, 0, 1, 2]);
    let mut sizes = Vec::new();
    for left in (1..=count as u64).rev() {
        let size = if left == 1 { rest } else { rng.below(2 * rest / left + 1) };
        sizes.push(size);
        rest -= size;
    }
    rng.shuffle(&mut sizes);
    sizes
}

/// A limit at one of these sums or right beside it, or one that is far from all.
pub fn limit_near(rng: &mut Rng, sums: &[u64]) -> f64 {
    if sums.is_empty() || rng.one_in(6) {
        return far_limit(rng);
    }
    let sum = rng.pick(sums) as f64;
    match rng.below(9) {
        0..=3 => sum,
        4 => sum + 1.0,
        5 => sum - 1.0,
        6 => sum.next_up(),
        7 => sum.next_down(),
        _ => sum + 0.5,
    }
}

/// A limit that has nothing to do with any sum.
fn far_limit(rng: &mut Rng) -> f64 {
    let far = [
        0.0,
        0.0,
        -0.0,
        1.0,
        -1.0,
        f64::MIN_POSITIVE,
        5e-324,
        f64::MAX,
        f64::MIN,
        f64::INFINITY,
        f64::NEG_INFINITY,
        TOTAL as f64,
    ];
    rng.pick(&far)
}

/// The sums of each beginning and of each end of a list, and the total.
pub fn partial_sums(sizes: &[u64]) -> Vec<u64> {
    let total: u64 = sizes.iter().sum();
    let mut left = 0;
    let mut sums = vec![total];
    for size in sizes {
        left += size;
        sums.extend([left, total - left]);
    }
    sums
}
