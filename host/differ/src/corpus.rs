//! The recorded corpus: small cases that tell, chosen by the faults they notice and the kinds
//! they show, with the crate's answers under the papers' order; and cases that tell the order of
//! subgroups, tell marks or notice faults of the reading of the papers.
//!
//! Three pairs of files: `leaves.txt` and `builds.txt` with the crate's answers in
//! `leaves.answers.txt` and `builds.answers.txt`, and `refusals.txt`, whose answers follow from
//! the tables of documents 01 and 02 alone.

mod reading;

use std::{
    collections::{BTreeMap, BTreeSet},
    fs,
    path::Path,
};

use faults::Fault;
use text::{Call, Case, Question};

use crate::{
    fault_runs::{accepted, break_off_quietly, call_of, notices},
    generate::{self, damage, figures},
    kinds,
    rng::Rng,
    run::written,
    side::{Reference, Response, Side},
};

/// The seed of the candidates.
const SEED: u64 = 20_001;

/// How many cases each reason is given.
const WANTED: u64 = 4;

/// How many random candidates there are for a leaf, for builds and for refusals.
const LEAF_CANDIDATES: u64 = 8_000;
const BUILD_CANDIDATES: u64 = 3_000;
const REFUSAL_CANDIDATES: u64 = 6_000;

/// A question that may go in, with its answer.
struct Candidate {
    question: Question,
    response: Response,
    /// It as text: the shorter is looked at first.
    text: String,
}

/// Two texts: cases and their answers.
#[derive(Default)]
struct Pair {
    cases: String,
    answers: String,
}

/// Writes the corpus, or compares it with the files that are there; true if they are the same.
pub fn write(folder: &Path, check: bool) -> Result<bool, String> {
    let leaves =
        [Call::Similarity, Call::Cut, Call::Capture, Call::Filter, Call::Merge, Call::Name];
    let (mut builds, mut refusals) = (recorded(&[Call::Chunks]), refusals());
    reading::add_telling(&mut builds);
    reading::complete(&mut builds, &mut refusals);
    let mut files = Vec::new();
    for (name, origin, pair) in [
        ("leaves", "the crate's own text", recorded(&leaves)),
        ("builds", "the crate's own text under the papers' order", builds),
        ("refusals", "the tables of refusals of documents 01 and 02", refusals),
    ] {
        let head = format!("# Made by `differ corpus`. The answers are those of {origin}.\n");
        files.push((folder.join(format!("{name}.txt")), head + &pair.cases));
        files.push((folder.join(format!("{name}.answers.txt")), pair.answers));
    }
    let mut same = true;
    for (path, text) in files {
        let shown = path.display();
        if check {
            let recorded =
                fs::read_to_string(&path).map_err(|error| format!("{shown}: {error}"))?;
            same &= recorded == text;
            println!("{shown}: {}", if recorded == text { "the same" } else { "differs" });
        } else {
            fs::create_dir_all(folder).map_err(|error| format!("{shown}: {error}"))?;
            fs::write(&path, &text).map_err(|error| format!("{shown}: {error}"))?;
            println!("{shown}: {} lines", text.lines().count());
        }
    }
    Ok(same)
}

/// The recorded cases of these calls.
fn recorded(calls: &[Call]) -> Pair {
    break_off_quietly();
    let faults = faults::all();
    let mut pair = Pair::default();
    for &call in calls {
        let mut taken: BTreeMap<String, u64> = BTreeMap::new();
        let mut number = 0;
        for candidate in candidates(call) {
            let reasons = reasons(&candidate, &faults);
            let new = still_wanted(&mut taken, reasons);
            if !new.is_empty() {
                number += 1;
                pair.add(&format!("{}{number}", call.word()), &new.join("; "), candidate);
            }
        }
    }
    pair
}

/// The reasons that are still wanted, which are then given once more; so are the others, if any is.
fn still_wanted(taken: &mut BTreeMap<String, u64>, reasons: Vec<String>) -> Vec<String> {
    let count = |reason: &String| taken.get(reason).copied().unwrap_or(0);
    let new: Vec<String> =
        reasons.iter().filter(|reason| count(reason) < WANTED).cloned().collect();
    if !new.is_empty() {
        for reason in reasons {
            *taken.entry(reason).or_default() += 1;
        }
    }
    new
}

/// Why a candidate is worth recording: kinds that it shows and faults that it notices.
fn reasons(candidate: &Candidate, faults: &[Fault]) -> Vec<String> {
    let Candidate { question, response, .. } = candidate;
    let Response::Answered(answer) = response else {
        return Vec::new();
    };
    let call = question.call();
    let kinds = kinds::of(question, answer).into_iter().filter(|(_, holds)| *holds);
    let noticed = faults
        .iter()
        .filter(|fault| call_of(fault) == call || call == Call::Chunks)
        .filter(|fault| notices(fault, question, response))
        .map(|fault| format!("notices {} {}", fault.change.leaf, fault.change.name));
    noticed.chain(kinds.map(|(kind, _)| kind.to_string())).collect()
}

/// Figures first, then short and random questions by their length, all answered by the crate.
fn candidates(call: Call) -> Vec<Candidate> {
    let count = if call == Call::Chunks { BUILD_CANDIDATES } else { LEAF_CANDIDATES };
    let figures = figures::figures().expect("the figures can be read");
    let figures = figures.into_iter().map(|(case, _)| case.question).filter(|q| q.call() == call);
    let mut short = Vec::new();
    generate::exhaustive(call, &mut |question| short.push(question));
    let step = (short.len() / 500).max(1);
    let random = (0..count).map(|case| generate::random(call, &mut Rng::for_case(SEED, case)));
    let mut others: Vec<Candidate> =
        short.into_iter().step_by(step).chain(random).filter_map(answered).collect();
    others.sort_by_key(|candidate| candidate.text.len());
    let longest = if call == Call::Chunks { 1_500 } else { 400 };
    let mut seen = BTreeSet::new();
    let mut fits = |candidate: &Candidate| {
        candidate.text.len() <= longest && seen.insert(candidate.text.clone())
    };
    figures.filter_map(answered).chain(others).filter(|one| fits(one)).collect()
}

/// A question with the crate's answer, if document 01 accepts it; the two have to agree.
fn answered(question: Question) -> Option<Candidate> {
    let (question, response) = accepted(question)?;
    assert!(response == Reference.respond(&question), "the crate and the reading disagree");
    Some(Candidate::new(question, response))
}

/// Damaged cases, the shortest of each call and number.
fn refusals() -> Pair {
    let mut pair = Pair::default();
    for call in Call::ALL {
        let mut candidates = damaged(call);
        candidates.sort_by_key(|candidate| candidate.text.len());
        pair.add_refusals(call, candidates);
    }
    pair
}

/// Random questions of a call, damaged.
fn damaged(call: Call) -> Vec<Candidate> {
    let mut candidates = Vec::new();
    for case in 0..REFUSAL_CANDIDATES {
        let mut rng = Rng::for_case(SEED + 1, case);
        let mut question = generate::plain(call, &mut rng);
        if let Some(planted) = damage::damage(&mut rng, &mut question) {
            let response = Reference.respond(&question);
            assert!(response == Response::Refused(planted), "another number was planted");
            candidates.push(Candidate::new(question, response));
        }
    }
    candidates
}

impl Candidate {
    fn new(question: Question, response: Response) -> Self {
        let text = Case { tag: "t".into(), question: question.clone() }.to_string();
        Self { question, response, text }
    }
}

impl Pair {
    /// How many cases it holds: each stands after a line that says why.
    fn count(&self) -> usize {
        self.cases.lines().filter(|line| line.starts_with("# ")).count()
    }

    /// Adds a case and its answer.
    fn add(&mut self, tag: &str, reason: &str, candidate: Candidate) {
        let Candidate { question, response, .. } = candidate;
        self.answers += &written(tag, question.call(), &response);
        self.cases += &format!("# {reason}\n{}", Case { tag: tag.into(), question });
    }

    /// Adds the shortest refused cases of each number, and the shortest that differ from them.
    fn add_refusals(&mut self, call: Call, candidates: Vec<Candidate>) {
        let mut taken: BTreeMap<u32, u64> = BTreeMap::new();
        for (at, candidate) in candidates.into_iter().enumerate() {
            let Response::Refused(number) = candidate.response else { continue };
            let count = taken.entry(number).or_default();
            // The first few are alike; every fiftieth after them is taken too.
            if *count < 2 * WANTED && (*count < WANTED || at % 50 == 0) {
                *count += 1;
                let tag = format!("{}{number}x{count}", call.word());
                self.add(&tag, &format!("{number} is refused"), candidate);
            }
        }
    }
}
