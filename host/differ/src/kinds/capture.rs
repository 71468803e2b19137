//! Kinds of question for Capture.

use std::collections::BTreeSet;

use text::{Capture, tables};

use super::Kinds;
use crate::reference::capture::{capture as walk, chain, eligible};

pub fn kinds(capture: &Capture, marks: &[u8]) -> Kinds {
    let tables = tables::of_capture(capture);
    let chain_of = |first: &u32| chain(*first, &tables.dep_module, &tables.dep_next);
    let chains: Vec<Vec<usize>> = capture.first.iter().map(chain_of).collect();
    let mut kinds = of_start(capture);
    kinds.extend(of_walk(capture, &chains, marks));
    kinds.extend(of_records(capture, &chains));
    kinds
}

fn of_start(capture: &Capture) -> Kinds {
    let start = capture.flags.get(capture.start as usize).copied().unwrap_or(0);
    vec![
        ("recursion off", !capture.recursive),
        ("a start that isn't normal", start & 1 == 0),
        ("a start that isn't included", start & 2 == 0),
        ("a start that is assigned", start & 4 != 0),
    ]
}

fn of_walk(capture: &Capture, chains: &[Vec<usize>], marks: &[u8]) -> Kinds {
    let captured = |module: usize| marks[module] == 1;
    let from_captured: Vec<usize> =
        (0..marks.len()).filter(|m| captured(*m)).flat_map(|m| chains[m].iter().copied()).collect();
    let in_the_way = |wanted: fn(u8) -> bool| {
        let passing = |flags: &u8| eligible(*flags) || wanted(*flags);
        let open: Vec<bool> = capture.flags.iter().map(passing).collect();
        let start = capture.start as usize;
        let more = walk(&open, chains, start, capture.recursive);
        marks[start] == 1
            && (0..marks.len()).any(|m| more[m] && marks[m] == 0 && eligible(capture.flags[m]))
    };
    let recursive = capture.recursive;
    vec![
        ("more than the start", marks.iter().filter(|mark| **mark == 1).count() > 1),
        ("every module", marks.len() > 1 && marks.iter().all(|mark| *mark == 1)),
        ("a dependency on itself", (0..marks.len()).any(|m| captured(m) && chains[m].contains(&m))),
        ("a way back to the start", recursive && from_captured.contains(&(capture.start as usize))),
        ("an assigned module in the way", in_the_way(|flags| flags & 7 == 7)),
        ("an excluded module in the way", in_the_way(|flags| flags & 7 == 1)),
        ("an external module in the way", in_the_way(|flags| flags & 7 == 2)),
    ]
}

fn of_records(capture: &Capture, chains: &[Vec<usize>]) -> Kinds {
    let repeats = |chain: &Vec<usize>| chain.iter().collect::<BTreeSet<_>>().len() < chain.len();
    let nexts: Vec<u32> =
        capture.records.iter().map(|record| record.next).filter(|n| *n != 0).collect();
    let shared = nexts.iter().collect::<BTreeSet<_>>().len() < nexts.len();
    let records = capture.records.len();
    vec![
        ("a module twice on a chain", chains.iter().any(repeats)),
        ("chains with a shared tail", shared),
        ("a circle of records that no chain enters", has_circle(capture)),
        (
            "a chain of all D records",
            records > 1 && chains.iter().any(|chain| chain.len() == records),
        ),
        ("4,096 modules", capture.flags.len() == 4_096),
        ("65,535 records", records == 65_535),
    ]
}

/// Whether some record leads nowhere but round.
fn has_circle(capture: &Capture) -> bool {
    if capture.records.len() > 1_000 {
        return false;
    }
    let follow = |first: u32| {
        let mut record = first;
        for _ in 0..=capture.records.len() {
            if record == 0 {
                return false;
            }
            record = capture.records[record as usize - 1].next;
        }
        true
    };
    capture.records.iter().any(|record| follow(record.next))
}
