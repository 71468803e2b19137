//! Kinds of question for Similarity.

use text::Sim;

use super::Kinds;

pub fn kinds(sim: &Sim, value: u32) -> Kinds {
    let (left, right) = (&sim.left, &sim.right);
    let gap = |wanted: u8| left.iter().zip(right).any(|(a, b)| a.abs_diff(*b) == wanted);
    let prefix = left.starts_with(right) || right.starts_with(left);
    vec![
        ("an empty id", left.is_empty() || right.is_empty()),
        ("equal ids", left == right),
        ("one id begins with the other", prefix && left != right),
        ("bytes that differ by 9", gap(9)),
        ("bytes that differ by 10", gap(10)),
        ("bytes that differ by 11", gap(11)),
        ("nothing in common", value == 0 && !left.is_empty() && !right.is_empty()),
        ("bytes above 127", left.iter().chain(right).any(|byte| *byte > 127)),
        ("an id that isn't UTF-8", [left, right].iter().any(|id| std::str::from_utf8(id).is_err())),
        ("an id of 1,024 bytes", left.len() == 1_024 || right.len() == 1_024),
        ("both ids of 1,024 bytes", left.len() == 1_024 && right.len() == 1_024),
    ]
}
