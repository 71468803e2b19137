//! Document 02's note 4: whether a chunk is above its maximum, and why it wasn't cut.

use super::{Build, Item, Modules};
use crate::{
    rules::{Marking, SOUND},
    trace::Event,
};

impl Build<'_> {
    /// The mark of the chunk that an item becomes, from the modules that it has: 0 within its maximum
    /// or without one, 1 above it with one module, 2 above it with no cut allowed.
    pub(super) fn mark(&mut self, item: &Item) -> u8 {
        let (sized, held) = self.marked_by(item);
        let mark = self.mark_of(item.group, sized, held);
        if item.piece && mark != Some(0) {
            self.trace.events.push(Event::PieceAbove);
        } else if !item.piece && mark != self.mark_of(item.group, &item.before, &item.before) {
            self.trace.events.push(Event::MarkChanged);
        }
        // What is above its maximum and can be cut is cut, so it never becomes a chunk.
        assert!(mark.is_some() || self.rules != SOUND, "a chunk that could have been cut");
        self.numbered(mark.unwrap_or(0))
    }

    /// The modules whose sizes are added for a mark, and those that are counted and cut: its own.
    fn marked_by<'a>(&self, item: &'a Item) -> (&'a Modules, &'a Modules) {
        let (own, before) = (&item.modules, &item.before);
        match self.rules.marking() {
            Some(Marking::BeforeLeaving) if !item.piece => (before, before),
            Some(Marking::SizeBeforeLeaving) if !item.piece => (before, own),
            Some(Marking::BeforeCut) if item.piece => (before, before),
            Some(Marking::SizeBeforeCut) if item.piece => (before, own),
            _ => (own, own),
        }
    }

    /// The mark of these modules in a group, unless they are above its maximum and can be cut.
    fn mark_of(&self, group: usize, sized: &Modules, held: &Modules) -> Option<u8> {
        let size = self.total(sized) as f64;
        let maximum = self.max_size_by(self.rules.of_marks(), group);
        let at_maximum = self.rules.marking() == Some(Marking::AtMaximum) && maximum == Some(size);
        if maximum.is_none_or(|maximum| size <= maximum) && !at_maximum {
            return Some(0);
        }
        if held.len() == 1 {
            return Some(1);
        }
        if self.can_be_cut(group, held) { None } else { Some(2) }
    }

    /// Whether a cut of modules in id order is allowed: the sizes on each side reach the minimum.
    fn can_be_cut(&self, group: usize, modules: &Modules) -> bool {
        let minimum = self.min_size_by(self.rules.of_marks(), group);
        let order = match self.rules.marking() {
            Some(Marking::InExecutionOrder) => self.in_execution_order(modules),
            Some(Marking::ByLoadNumber) => modules.iter().copied().collect(),
            _ => self.in_id_order(modules),
        };
        let sizes: Vec<u64> = order.iter().map(|module| self.tables.sizes[*module]).collect();
        let reaches = |side: &[u64]| side.iter().sum::<u64>() as f64 >= minimum;
        let is_allowed = |index: usize| {
            let (left, right) = sizes.split_at(index);
            match self.rules.marking() {
                Some(Marking::AnyCut) => true,
                Some(Marking::OneSideEnough) => reaches(left) || reaches(right),
                _ => reaches(left) && reaches(right),
            }
        };
        (1..sizes.len()).any(is_allowed)
    }

    /// The number that stands for a mark.
    fn numbered(&self, mark: u8) -> u8 {
        match (self.rules.marking(), mark) {
            (_, 0) => 0,
            (Some(Marking::Exchanged), mark) => 3 - mark,
            (Some(Marking::AlwaysOne), _) => 1,
            (Some(Marking::AlwaysTwo), _) => 2,
            (_, mark) => mark,
        }
    }
}
