//! Step 3's last tie: which of the subgroups of one (group, name) comes first.

use std::cmp::Ordering;

use text::tables::BuildTables;

use crate::{
    id,
    rules::{Rules, Tie},
};

/// Subgroups follow one another by the smallest id that each held when they were finished.
#[derive(Clone, Copy)]
pub struct Ties<'a> {
    pub tables: &'a BuildTables,
    pub rules: Rules,
}

impl Ties<'_> {
    /// The module that the place of a subgroup goes by: of those it holds, that of the smallest id.
    pub fn first<'a>(&self, held: impl IntoIterator<Item = &'a usize>) -> Option<usize> {
        let held = held.into_iter().copied();
        match self.rules.tie() {
            Some(Tie::LargestId) => held.max_by(|one, other| self.lower(*one, *other)),
            _ => held.min_by(|one, other| self.lower(*one, *other)),
        }
    }

    /// Which of two subgroups comes first; their places go by these modules.
    pub fn order(&self, one: Option<usize>, other: Option<usize>) -> Ordering {
        let order = match (one, other) {
            (Some(one), Some(other)) => self.lower(one, other),
            _ => one.cmp(&other),
        };
        match self.rules.tie() {
            // Subgroups come by number, and a stable sort keeps that.
            Some(Tie::Number) => Ordering::Equal,
            Some(Tie::Backwards) => order.reverse(),
            _ => order,
        }
    }

    /// Which of two modules has the lower id, in byte order.
    fn lower(&self, one: usize, other: usize) -> Ordering {
        let [left, right] =
            [one, other].map(|module| id(&self.tables.ids, &self.tables.offsets, module));
        match self.rules.tie() {
            Some(Tie::Execution) => self.tables.orders[one].cmp(&self.tables.orders[other]),
            Some(Tie::LoadNumber) => one.cmp(&other),
            Some(Tie::ShorterId) => left.len().cmp(&right.len()).then(left.cmp(right)),
            _ => left.cmp(right),
        }
    }
}
