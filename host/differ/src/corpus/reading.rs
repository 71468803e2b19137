//! Cases that are recorded because they tell the order of subgroups or a chunk's mark, or because they
//! notice a fault of the reading of the papers.

use std::collections::BTreeSet;

use text::{Call, Question, read_cases};

use super::{Candidate, Pair, answered, candidates, damaged};
use crate::{
    generate::telling,
    reading_faults::notices,
    reference::{
        case, fault_list,
        rules::{ReadingFault, SOUND},
    },
    side::{Reference, Response, Side},
};

/// How many recorded cases are wanted for each fault.
const WANTED: u64 = 2;

/// The longest case that is taken, as text.
const LONGEST: usize = 2_200;

/// The faults of the reading with how many recorded cases notice each, up to what is wanted.
struct Noticed(Vec<(ReadingFault, u64)>);

/// Adds all builds that are made to tell the order of subgroups, and those that tell marks.
pub fn add_telling(builds: &mut Pair) {
    add_all(builds, telling::orders(), "tells the order of subgroups");
    add_all(builds, telling::marks(), "tells the mark of a chunk");
}

fn add_all(builds: &mut Pair, questions: Vec<Question>, reason: &str) {
    for candidate in questions.into_iter().filter_map(answered) {
        let tag = format!("chunks{}", builds.count() + 1);
        builds.add(&tag, reason, candidate);
    }
}

/// Adds cases, the shortest first, until the recorded ones notice each fault as often as wanted.
pub fn complete(builds: &mut Pair, refusals: &mut Pair) {
    // Why a cut has no answer shows in no build: the recorded cuts have to tell.
    let of_builds = |fault: &ReadingFault| !matches!(fault, ReadingFault::Nones(_));
    let faults = fault_list::all().into_iter().filter(of_builds);
    let mut noticed = Noticed(faults.map(|fault| (fault, 0)).collect());
    let mut seen = BTreeSet::new();
    for pair in [&*builds, &*refusals] {
        for case in read_cases(&pair.cases).expect("the cases can be read") {
            let response = Reference.respond(&case.question);
            let candidate = Candidate::new(case.question, response);
            noticed.still_wanted(&candidate.question);
            seen.insert(candidate.text);
        }
    }
    let (mut built, mut refused) = (builds.count(), 0);
    for candidate in all_candidates() {
        if candidate.text.len() > LONGEST || !seen.insert(candidate.text.clone()) {
            continue;
        }
        let faults = noticed.still_wanted(&candidate.question);
        if faults.is_empty() {
            continue;
        }
        let reason = format!("notices reading {}", faults.join("; "));
        if let Response::Refused(number) = candidate.response {
            refused += 1;
            refusals.add(&format!("chunks{number}r{refused}"), &reason, candidate);
        } else {
            built += 1;
            builds.add(&format!("chunks{built}"), &reason, candidate);
        }
    }
}

impl Noticed {
    /// The faults that a build notices and that are still wanted; they are given once more.
    fn still_wanted(&mut self, question: &Question) -> Vec<String> {
        if question.call() != Call::Chunks {
            return Vec::new();
        }
        let sound = case(question, SOUND);
        let wanted = self.0.iter_mut().filter(|(_, count)| *count < WANTED);
        let noticed = wanted.filter(|(fault, _)| notices(*fault, question, &sound));
        let give = |(fault, count): &mut (ReadingFault, u64)| {
            *count += 1;
            format!("{fault:?}")
        };
        noticed.map(give).collect()
    }
}

/// Builds that are made to tell, and the random ones, accepted and damaged, by their length.
fn all_candidates() -> Vec<Candidate> {
    let (refused, accepted): (Vec<Question>, Vec<Question>) = telling::builds()
        .into_iter()
        .partition(|question| matches!(Reference.respond(question), Response::Refused(_)));
    let mut all: Vec<Candidate> = accepted.into_iter().filter_map(answered).collect();
    all.extend(refused.into_iter().map(|question| {
        let response = Reference.respond(&question);
        Candidate::new(question, response)
    }));
    all.extend(candidates(Call::Chunks));
    all.extend(damaged(Call::Chunks));
    all.sort_by_key(|candidate| candidate.text.len());
    all
}
