//! The capture of a start module.

/// A module is eligible when normal, included and not assigned.
pub fn eligible(flags: u8) -> bool {
    flags & 1 != 0 && flags & 2 != 0 && flags & 4 == 0
}

/// The modules named along a chain, from its first record to its zero.
pub fn chain(first: u32, module: &[u32], next: &[u32]) -> Vec<usize> {
    let mut modules = Vec::new();
    let mut record = first as usize;
    // Only a faulty reading meets a chain that doesn't end.
    while record != 0 && modules.len() < next.len() {
        modules.push(module[record] as usize);
        record = next[record] as usize;
    }
    modules
}

/// The eligible modules reached from the start through eligible modules only; with recursion off,
/// the start alone; nothing if the start isn't eligible.
pub fn capture(
    eligible: &[bool],
    chains: &[Vec<usize>],
    start: usize,
    recursive: bool,
) -> Vec<bool> {
    let mut captured = vec![false; eligible.len()];
    if !eligible[start] {
        return captured;
    }
    captured[start] = true;
    let mut to_visit = if recursive { vec![start] } else { Vec::new() };
    while let Some(module) = to_visit.pop() {
        for &dependency in &chains[module] {
            if eligible[dependency] && !captured[dependency] {
                captured[dependency] = true;
                to_visit.push(dependency);
            }
        }
    }
    captured
}
