//! Dependency records and chains.

use text::Record;

use crate::rng::Rng;

/// First records of so many modules, and records with chains that end.
pub struct Chains {
    pub first: Vec<u32>,
    pub records: Vec<Record>,
}

/// Chains of a tree, or with shared tails, repeats, self-dependencies and unused records.
pub fn chains(rng: &mut Rng, modules: usize, most: usize) -> Chains {
    let mut chains = if rng.one_in(2) { tree(rng, modules) } else { tangle(rng, modules, most) };
    if rng.one_in(8) {
        let length = rng.at(3) + 1;
        add_circle(rng, &mut chains, modules, length);
    }
    if rng.one_in(2) {
        renumber(rng, &mut chains);
    }
    chains
}

/// Each module but the first is named by one of the few before it, and now and then by another.
fn tree(rng: &mut Rng, modules: usize) -> Chains {
    let mut chains = Chains { first: vec![0; modules], records: Vec::new() };
    for module in 1..modules {
        let owner = module - 1 - rng.at(module.min(3));
        chains.add(owner, module);
        if rng.one_in(6) {
            chains.add(rng.at(modules), module);
        }
    }
    chains
}

impl Chains {
    /// Makes a module name another one at the head of its chain.
    pub fn add(&mut self, owner: usize, module: usize) {
        self.records.push(Record { module: index(module), next: self.first[owner] });
        self.first[owner] = index(self.records.len());
    }

    /// Moves each record to a number of its own.
    fn move_to(&mut self, numbers: &[usize]) {
        let new = |old: u32| if old == 0 { 0 } else { index(numbers[old as usize - 1]) };
        let mut moved = self.records.clone();
        for (old, record) in self.records.iter().enumerate() {
            moved[numbers[old] - 1] = Record { module: record.module, next: new(record.next) };
        }
        self.records = moved;
        for first in &mut self.first {
            *first = new(*first);
        }
    }

    /// How long each module's chain is.
    pub fn lengths(&self) -> impl Iterator<Item = usize> {
        let next = |at: &usize| (self.records[*at].next as usize).checked_sub(1);
        let length = move |first: &u32| {
            std::iter::successors((*first as usize).checked_sub(1), next).count()
        };
        self.first.iter().map(length)
    }
}

/// Records that go on to any earlier one.
fn tangle(rng: &mut Rng, modules: usize, most: usize) -> Chains {
    let count = rng.at(most + 1);
    let mut records: Vec<Record> = Vec::new();
    for number in 0..count {
        let next = match rng.below(4) {
            0 => rng.at(number + 1),
            1 => 0,
            _ => number,
        };
        records.push(Record { module: index(rng.at(modules)), next: index(next) });
    }
    let first = (0..modules).map(|_| first_record(rng, count)).collect();
    Chains { first, records }
}

/// A first record: none, or any, more often one of the last made.
fn first_record(rng: &mut Rng, count: usize) -> u32 {
    match rng.below(3) {
        0 => 0,
        1 => index(rng.at(count + 1)),
        _ => index(count - rng.at(count.min(3) + 1).min(count)),
    }
}

/// A circle of so many records that no chain enters.
pub fn add_circle(rng: &mut Rng, chains: &mut Chains, modules: usize, length: usize) {
    if modules == 0 {
        return;
    }
    let from = chains.records.len() + 1;
    for place in 0..length {
        let next = from + (place + 1) % length;
        chains.records.push(Record { module: index(rng.at(modules)), next: index(next) });
    }
}

/// Gives the records other numbers.
pub fn renumber(rng: &mut Rng, chains: &mut Chains) {
    let mut numbers: Vec<usize> = (1..=chains.records.len()).collect();
    rng.shuffle(&mut numbers);
    chains.move_to(&numbers);
}

/// Gives the records the numbers from the last to the first: where each went on to an earlier one,
/// each goes on to a later one, as in the tables of a host that fills them in order.
pub fn turn_round(chains: &mut Chains) {
    let numbers: Vec<usize> = (1..=chains.records.len()).rev().collect();
    chains.move_to(&numbers);
}

/// A number that fits in 32 bits.
pub fn index(number: usize) -> u32 {
    u32::try_from(number).unwrap_or(u32::MAX)
}
