//! Which kinds of input a run has seen, so that an easy generator shows.

mod build;
mod capture;
mod cut;
mod filter;
mod merge;
mod name;
mod similarity;

use std::collections::BTreeMap;

use text::{Answer, Call, Count, Question, tables::effective};

/// The kinds of one call, each with whether this question is of it. Every question of a call
/// gives the same list of names.
pub type Kinds = Vec<(&'static str, bool)>;

/// The kinds of an accepted question.
pub fn of(question: &Question, answer: &Answer) -> Kinds {
    let damage = question.damage().cloned().unwrap_or_default();
    let mut kinds = of_effective(&effective(question), answer);
    match question.call() {
        Call::Similarity | Call::Filter => {}
        Call::Cut => kinds.push(("offsets that leave out bytes", damage.offsets.is_some())),
        Call::Capture => kinds.push(("areas exactly full", damage.areas.is_some())),
        Call::Name => kinds.extend([
            ("areas exactly full", damage.areas.is_some()),
            ("bytes that belong to no group's name", damage.name_offsets.is_some()),
            ("bytes that belong to no entry's name", damage.entry_offsets.is_some()),
        ]),
        Call::Merge | Call::Chunks => kinds.extend([
            ("areas exactly full", damage.areas.is_some()),
            (
                "more entries than are used",
                damage.counts.iter().any(|(count, _)| *count == Count::E),
            ),
        ]),
    }
    kinds
}

/// The kinds of a question without damage.
fn of_effective(question: &Question, answer: &Answer) -> Kinds {
    match (question, answer) {
        (Question::Sim(sim), Answer::Sim(value)) => similarity::kinds(sim, *value),
        (Question::Cut(cut), Answer::Cut(answer)) => cut::kinds(cut, answer),
        (Question::Capture(capture), Answer::Capture(marks)) => capture::kinds(capture, marks),
        (Question::Filter(filter), Answer::Filter(passes)) => filter::kinds(filter, *passes),
        (Question::Merge(merge), Answer::Merge(_)) => merge::kinds(merge),
        (Question::Name(name), Answer::Name(answer)) => name::kinds(name, answer),
        (Question::Chunks(chunks), Answer::Chunks(list)) => build::kinds(&chunks.build, list),
        _ => Vec::new(),
    }
}

/// How many questions of each kind there were.
#[derive(Debug, Default, Clone)]
pub struct Counts {
    kinds: BTreeMap<Call, Vec<(&'static str, u64)>>,
}

impl Counts {
    /// Counts one question.
    pub fn note(&mut self, call: Call, kinds: &Kinds) {
        let counts = self
            .kinds
            .entry(call)
            .or_insert_with(|| kinds.iter().map(|(name, _)| (*name, 0)).collect());
        for ((_, count), (_, holds)) in counts.iter_mut().zip(kinds) {
            *count += u64::from(*holds);
        }
    }

    /// The kinds of a call with their counts.
    pub fn of(&self, call: Call) -> &[(&'static str, u64)] {
        self.kinds.get(&call).map_or(&[], Vec::as_slice)
    }

    /// The kinds of which there was no question.
    pub fn missing(&self) -> Vec<(Call, &'static str)> {
        let all =
            self.kinds.iter().flat_map(|(call, kinds)| kinds.iter().map(|kind| (*call, *kind)));
        all.filter(|(_, (_, count))| *count == 0).map(|(call, (name, _))| (call, name)).collect()
    }
}
