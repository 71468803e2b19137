//! Step 2: the subgroups of an entries-aware set; and step 3's last tie, their order.

use std::collections::{BTreeSet, VecDeque};

use super::{Build, Item, Modules};
use crate::{
    merge::{Subgroup, merge_by},
    row,
    rules::{Setting, Tie, Use},
    ties::Ties,
    trace::Event,
};

impl Build<'_> {
    /// An entries-aware set divided by equal bits, numbered by first appearance in execution order,
    /// then merged.
    pub(super) fn subgroups(&mut self, set: Item) -> Vec<Item> {
        let mut divided: Vec<([u64; 4], Modules)> = Vec::new();
        for module in self.in_execution_order(&set.modules) {
            let bits = row(&self.tables.bits, module);
            let compared = |bits: [u64; 4]| self.rules.words(Use::Equality, bits);
            match divided.iter_mut().find(|(other, _)| compared(*other) == compared(bits)) {
                Some((_, modules)) => {
                    modules.insert(module);
                }
                None => divided.push((bits, BTreeSet::from([module]))),
            }
        }
        if divided.len() > 1 {
            self.trace.events.push(Event::Divided);
        }
        self.merged(set, divided)
    }

    /// The merge of the subgroups of one set.
    fn merged(&mut self, set: Item, divided: Vec<([u64; 4], Modules)>) -> Vec<Item> {
        let absent = self.rules.default(Setting::Threshold, 0.0, 2.0);
        let threshold = self.limit(set.group, Setting::Threshold).unwrap_or(absent);
        let subgroup = |(bits, modules): &([u64; 4], Modules)| Subgroup {
            size: self.total(modules),
            bits: *bits,
        };
        let merged = merge_by(self.rules, divided.iter().map(subgroup).collect(), threshold);
        self.trace.events.extend(merged.joins.iter().map(|_| Event::Joined));
        let mut items = Vec::new();
        for (number, left) in merged.left.iter().enumerate() {
            let Some(left) = left else { continue };
            let members = (0..divided.len()).filter(|k| merged.number(*k) as usize == number);
            let modules: Modules = members.flat_map(|k| divided[k].1.iter().copied()).collect();
            let first = self.finished(&divided[number].1, &modules);
            items.push(Item { bits: Some(left.bits), modules, first, ..set.clone() });
        }
        self.in_order(items)
    }

    /// The module that a finished subgroup's place goes by, of its own modules and of all that it
    /// holds after merging.
    fn finished(&mut self, own: &Modules, all: &Modules) -> Option<usize> {
        if self.rules.tie() == Some(Tie::BeforeMerging) {
            return self.ties().first(own);
        }
        let first = self.ties().first(all);
        let joined = first.is_some_and(|module| !own.contains(&module));
        self.trace.events.extend(joined.then_some(Event::JoinedFirst));
        first
    }

    /// The subgroups of one set, handed in by number, by their smallest ids.
    fn in_order(&mut self, mut items: Vec<Item>) -> Vec<Item> {
        let ties = self.ties();
        if !items.is_sorted_by(|one, other| ties.order(one.first, other.first).is_le()) {
            items.sort_by(|one, other| ties.order(one.first, other.first));
            self.trace.events.push(Event::OutOfNumbers);
        }
        items
    }

    /// Puts the next item and those of its group and name in order by the smallest ids left, as some
    /// faults do.
    pub(super) fn by_what_is_left(&self, items: &mut VecDeque<Item>) {
        let ties = self.ties();
        let first = |item: &Item| ties.first(&item.modules);
        of_one_set(items).sort_by(|one, other| ties.order(first(one), first(other)));
    }

    /// The last tie of step 3.
    pub(super) fn ties(&self) -> Ties<'_> {
        Ties { tables: self.tables, rules: self.rules }
    }
}

/// The next item and those of its group and name.
pub(super) fn of_one_set(items: &mut VecDeque<Item>) -> &mut [Item] {
    let set = |item: &Item| (item.group, item.name);
    let next = items.front().map(set);
    let count = items.iter().take_while(|item| Some(set(item)) == next).count();
    &mut items.make_contiguous()[..count]
}
