//! Similarity of two ids.

/// Over the common length, each byte pair adds 10 minus the absolute difference, or 0 if that is
/// negative.
pub fn similarity(left: &[u8], right: &[u8]) -> u32 {
    let common = left.len().min(right.len());
    (0..common).map(|at| 10_u32.saturating_sub(u32::from(left[at].abs_diff(right[at])))).sum()
}
