//! Questions for Capture.

use text::{Capture, Damage, Question, Record};

use super::{
    Visit,
    records::{chains, index},
};
use crate::rng::Rng;

/// All dependencies among two modules with all flags, and among three with those that tell.
pub fn exhaustive(visit: Visit<'_>) {
    among(2, &[0, 1, 2, 3, 4, 5, 6, 7], visit);
    among(3, &[1, 2, 3, 7], visit);
}

/// All flags of these, all sets of dependencies, all starts, recursion on and off.
fn among(modules: usize, flags: &[u8], visit: Visit<'_>) {
    for code in 0..flags.len().pow(index(modules)) {
        let flags: Vec<u8> =
            (0..modules).map(|at| flags[code / flags.len().pow(index(at)) % flags.len()]).collect();
        for edges in 0..1 << (modules * modules) {
            for start in 0..modules {
                for recursive in [false, true] {
                    visit(Question::Capture(of_edges(&flags, edges, start, recursive)));
                }
            }
        }
    }
}

/// A capture where module i depends on j if bit i×N + j is set.
fn of_edges(flags: &[u8], edges: usize, start: usize, recursive: bool) -> Capture {
    let modules = flags.len();
    let mut records: Vec<Record> = Vec::new();
    let mut first = Vec::new();
    for from in 0..modules {
        let mut head = 0;
        for to in (0..modules).filter(|to| edges >> (from * modules + to) & 1 == 1) {
            records.push(Record { module: index(to), next: head });
            head = index(records.len());
        }
        first.push(head);
    }
    let damage = Damage::default();
    Capture { recursive, start: index(start), flags: flags.to_vec(), first, records, damage }
}

/// A random graph, mostly of eligible modules, from a start that is mostly eligible.
pub fn random(rng: &mut Rng) -> Capture {
    let modules = rng.pick(&[1, 2, 3, 4, 5, 6, 8, 10, 14]);
    let most = rng.pick(&[0, modules, 2 * modules, 4 * modules]);
    let chains = chains(rng, modules, most);
    let start = if rng.one_in(3) { rng.at(modules) } else { 0 };
    let mut flags = flags(rng, modules);
    if !rng.one_in(6) {
        flags[start] = 3;
    }
    Capture {
        recursive: !rng.one_in(8),
        start: index(start),
        flags,
        first: chains.first,
        records: chains.records,
        damage: Damage::default(),
    }
}

/// Flags, in one case mostly eligible, in another mixed.
pub fn flags(rng: &mut Rng, modules: usize) -> Vec<u8> {
    let odd = rng.pick(&[1, 2, 3, 4, 6, 12, 1_000]);
    let other = [0, 1, 1, 2, 2, 4, 5, 6, 7, 7, 7];
    (0..modules).map(|_| if rng.one_in(odd) { rng.pick(&other) } else { 3 }).collect()
}
