//! A second build that is alike but for load numbers, by document 01's renumbering rule.

use std::collections::BTreeSet;

use text::{Build, Module, Record};

use super::{
    largest::RECORDS,
    records::{Chains, add_circle, index, renumber, turn_round},
};
use crate::rng::Rng;

/// A second build, and what each module of the first is numbered in it.
pub struct Renumbered {
    pub build: Build,
    pub numbers: Vec<u32>,
}

/// The modules named along each module's chain.
pub type Named = Vec<BTreeSet<u32>>;

/// Draws a numbering and lays the chains out anew: in another order, with and without repeats, ends
/// that are shared and not, other record numbers, other records on no chain.
pub fn renumbered(rng: &mut Rng, build: &Build) -> Renumbered {
    let mut numbers: Vec<u32> = (0..index(build.modules.len())).collect();
    rng.shuffle(&mut numbers);
    let named = translated(&named(build), &numbers);
    let mut chains = if named.iter().map(|named| 2 * named.len()).sum::<usize>() < RECORDS {
        let mut chains = laid(rng, &named);
        let circle = rng.pick(&[0, 0, 1, 2]);
        add_circle(rng, &mut chains, named.len(), circle);
        chains
    } else {
        // There is no room to lay shared chains apart, so they stay as they lie.
        renamed(build, &numbers)
    };
    if rng.one_in(2) {
        renumber(rng, &mut chains);
    } else {
        turn_round(&mut chains);
    }
    let mut modules = vec![Module::default(); numbers.len()];
    for (old, new) in numbers.iter().enumerate() {
        let first_record = chains.first[*new as usize];
        modules[*new as usize] = Module { first_record, ..build.modules[old].clone() };
    }
    let answers = build.answers.iter().map(|answers| permuted(answers, &numbers)).collect();
    let build = Build { modules, answers, records: chains.records, ..build.clone() };
    Renumbered { build, numbers }
}

/// Each item at the place that its number goes to.
fn permuted(items: &[u32], numbers: &[u32]) -> Vec<u32> {
    let mut moved = vec![0; items.len()];
    for (item, new) in items.iter().zip(numbers) {
        moved[*new as usize] = *item;
    }
    moved
}

/// The modules that each module's chain names.
pub fn named(build: &Build) -> Named {
    let record = |number: u32| build.records[number as usize - 1];
    let chain = |module: &Module| {
        let follow = |number: &u32| Some(record(*number).next).filter(|next| *next > 0);
        let first = Some(module.first_record).filter(|first| *first > 0);
        std::iter::successors(first, follow).map(|number| record(number).module).collect()
    };
    build.modules.iter().map(chain).collect()
}

/// The same in the other numbers.
pub fn translated(named: &Named, numbers: &[u32]) -> Named {
    let mut moved = vec![BTreeSet::new(); named.len()];
    for (old, modules) in named.iter().enumerate() {
        let modules = modules.iter().map(|module| numbers[*module as usize]).collect();
        moved[numbers[old] as usize] = modules;
    }
    moved
}

/// The chains as they lie, in the other numbers.
fn renamed(build: &Build, numbers: &[u32]) -> Chains {
    let first: Vec<u32> = build.modules.iter().map(|module| module.first_record).collect();
    let rename = |record: &Record| Record { module: numbers[record.module as usize], ..*record };
    Chains { first: permuted(&first, numbers), records: build.records.iter().map(rename).collect() }
}

/// New chains that name these modules.
fn laid(rng: &mut Rng, named: &Named) -> Chains {
    let mut chains = Chains { first: vec![0; named.len()], records: Vec::new() };
    let mut owners: Vec<usize> = (0..named.len()).collect();
    rng.shuffle(&mut owners);
    for (at, owner) in owners.iter().enumerate() {
        // The chain may end in that of another module, if that one names no other modules.
        let other = owners[rng.at(at + 1)];
        let mut left: Vec<u32> = named[*owner].iter().copied().collect();
        if other != *owner && named[other].is_subset(&named[*owner]) && rng.one_in(2) {
            chains.first[*owner] = chains.first[other];
            left.retain(|module| !named[other].contains(module));
        }
        let repeats = left.clone();
        left.extend(repeats.iter().filter(|_| rng.one_in(4)));
        rng.shuffle(&mut left);
        for module in left {
            chains.add(*owner, module as usize);
        }
    }
    chains
}

#[cfg(test)]
mod tests {
    use text::{Build, Call, Question, Record};

    use super::{named, renumbered, translated};
    use crate::{generate, rng::Rng};

    /// Whether a second build is alike to the first under a numbering, apart from the chains.
    fn modules_alike(first: &Build, second: &Build, numbers: &[u32]) -> bool {
        (0..first.modules.len()).all(|old| {
            let new = numbers[old] as usize;
            let mut module = second.modules[new].clone();
            module.first_record = first.modules[old].first_record;
            let answers = first.answers.iter().zip(&second.answers);
            module == first.modules[old] && answers.clone().all(|(one, two)| one[old] == two[new])
        })
    }

    /// Whether some record goes on to another, and none to itself or an earlier one.
    fn ascends(build: &Build) -> bool {
        let goes_on = |record: &Record| record.next > 0;
        let later = |(record, number): (&Record, u32)| !goes_on(record) || number < record.next;
        build.records.iter().any(goes_on) && build.records.iter().zip(1..).all(later)
    }

    #[test]
    fn a_second_build_is_alike_but_for_load_numbers() {
        let (mut other_numbers, mut other_counts, mut ascending) = (0, 0, 0);
        for case in 0..2_000 {
            let mut rng = Rng::for_case(11, case);
            let Question::Chunks(chunks) = generate::plain(Call::Chunks, &mut rng) else {
                unreachable!("a whole build was asked for")
            };
            let first = chunks.build;
            let second = renumbered(&mut rng, &first);
            assert!(modules_alike(&first, &second.build, &second.numbers));
            assert_eq!(translated(&named(&first), &second.numbers), named(&second.build));
            other_numbers +=
                u32::from(second.numbers.iter().zip(0..).any(|(new, old)| *new != old));
            other_counts += u32::from(second.build.records.len() != first.records.len());
            ascending += u32::from(ascends(&second.build));
        }
        assert!(other_numbers > 1_000 && other_counts > 500, "{other_numbers} {other_counts}");
        assert!(ascending > 200, "{ascending} with chains that only go on to later records");
    }
}
