//! 65,535 records among 4,096 modules.

use text::Record;

use super::{
    largest::{MODULES, RECORDS},
    records::{Chains, add_circle, index, renumber},
};
use crate::rng::Rng;

/// A chain above this length is rare, since the crate makes a set of each.
const LONG: usize = 40;

/// Chains that name modules of the owner's own cluster, so that no capture leaves it. They lie
/// apart or share their ends; a few records may be on no chain.
pub fn chains(rng: &mut Rng, cluster: usize) -> Chains {
    let circle = rng.pick(&[0, 0, 1, 3]);
    let count = RECORDS - circle;
    let mut chains =
        if rng.one_in(2) { apart(rng, cluster, count) } else { shared(rng, cluster, count) };
    add_circle(rng, &mut chains, MODULES, circle);
    renumber(rng, &mut chains);
    chains
}

/// So many records, each at the head of the chain of a module that is drawn.
fn apart(rng: &mut Rng, cluster: usize, count: usize) -> Chains {
    let mut chains = Chains { first: vec![0; MODULES], records: Vec::new() };
    for _ in 0..count {
        let owner = rng.at(MODULES);
        chains.add(owner, owner - owner % cluster + rng.at(cluster));
    }
    chains
}

/// So many records, a part for each cluster, that go on to earlier ones of their part.
fn shared(rng: &mut Rng, cluster: usize, count: usize) -> Chains {
    let clusters = MODULES / cluster;
    let breaks = rng.pick(&[5, 50, 1_000_000]);
    let mut chains = Chains { first: Vec::new(), records: Vec::new() };
    for number in 0..clusters {
        let (from, to) = (number * count / clusters, (number + 1) * count / clusters);
        let mut lengths: Vec<usize> = Vec::new();
        for place in 0..to - from {
            let next = next_place(rng, place, breaks);
            lengths.push(1 + next.map_or(0, |next| lengths[next]));
            let module = index(number * cluster + rng.at(cluster));
            let next = next.map_or(0, |next| index(from + next + 1));
            chains.records.push(Record { module, next });
        }
        for _ in 0..cluster {
            let first = first_place(rng, &lengths).map_or(0, |place| index(from + place + 1));
            chains.first.push(first);
        }
    }
    chains
}

/// Where a record goes on: mostly to the one before it, now and then to any earlier one, or nowhere.
fn next_place(rng: &mut Rng, place: usize, breaks: u64) -> Option<usize> {
    if place == 0 || rng.one_in(breaks) {
        return None;
    }
    Some(if rng.one_in(9) { rng.at(place) } else { place - 1 })
}

/// Where a chain begins: anywhere that is not far from its end, now and then anywhere, or nowhere.
fn first_place(rng: &mut Rng, lengths: &[usize]) -> Option<usize> {
    if rng.one_in(10) {
        return None;
    }
    let place = rng.at(lengths.len());
    let near = lengths[place] <= LONG || rng.one_in(300);
    Some(if near { place } else { rng.at(LONG.min(lengths.len())) })
}
