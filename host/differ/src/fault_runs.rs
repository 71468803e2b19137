//! Deliberate faults: each faulty copy of the crate's text is run against the unchanged one and
//! against the library.

use std::panic::{AssertUnwindSafe, catch_unwind};

use faults::Fault;
use judge::{Judge, Outside};
use text::{Call, Question};

use crate::{
    generate::{self, figures},
    rng::Rng,
    side::{Library, Reference, Response, Side},
};

/// How a fault fared.
pub struct Verdict {
    pub fault: Fault,
    /// Questions of its own leaf that were put to it.
    pub leaves: Count,
    /// Whole builds that were put to it.
    pub builds: Count,
}

/// The call that a fault spoils.
pub fn call_of(fault: &Fault) -> Call {
    Call::ALL.into_iter().find(|call| call.word() == fault.change.leaf).unwrap_or(Call::Chunks)
}

/// Whether a fault changes the answer to an accepted question.
pub fn notices(fault: &Fault, question: &Question, expected: &Response) -> bool {
    faulty(fault, question).as_ref() != Some(expected)
}

/// What a faulty copy says, unless it breaks off.
fn faulty(fault: &Fault, question: &Question) -> Option<Response> {
    let judge = Judge::of(fault.text);
    catch_unwind(AssertUnwindSafe(|| judge.respond(question))).ok()
}

/// From now on a faulty copy that breaks off does so without a word.
pub fn break_off_quietly() {
    std::panic::set_hook(Box::new(|_| {}));
}

/// Runs every fault on figures, short questions and random ones.
pub fn all(seed: u64, cases: u64) -> Vec<Verdict> {
    let builds = questions(Call::Chunks, seed, cases);
    let mut verdicts = Vec::new();
    for call in Call::ALL {
        let leaves = if call == Call::Chunks { Vec::new() } else { questions(call, seed, cases) };
        for fault in faults::all().into_iter().filter(|fault| call_of(fault) == call) {
            let (leaves, builds) = (count(&fault, &leaves), count(&fault, &builds));
            verdicts.push(Verdict { fault, leaves, builds });
        }
    }
    verdicts
}

/// A question with the crate's answer and the library's.
struct Known {
    question: Question,
    answer: Response,
    library: Response,
}

/// How many questions were put to a fault, and how many of its answers differ from the crate's and
/// from the library's.
#[derive(Default)]
pub struct Count {
    pub asked: u64,
    pub noticed: u64,
    pub library: u64,
}

/// How many of these a fault changes the answer to.
fn count(fault: &Fault, questions: &[Known]) -> Count {
    let mut count = Count::default();
    for known in questions {
        let response = faulty(fault, &known.question);
        count.asked += 1;
        count.noticed += u64::from(response.as_ref() != Some(&known.answer));
        count.library += u64::from(response.as_ref() != Some(&known.library));
    }
    count
}

/// Figures and random questions of a call, and as many of its short ones.
fn questions(call: Call, seed: u64, cases: u64) -> Vec<Known> {
    let figures = figures::figures().expect("the figures can be read");
    let mut questions: Vec<Question> =
        figures.into_iter().map(|(case, _)| case.question).filter(|q| q.call() == call).collect();
    let mut short = Vec::new();
    generate::exhaustive(call, &mut |question| short.push(question));
    let step = (short.len() as u64 / cases.max(1)).max(1);
    questions.extend(one_of_each(step as usize, &short, seed));
    questions.extend((0..cases).map(|case| generate::random(call, &mut Rng::for_case(seed, case))));
    questions.into_iter().filter_map(accepted).map(known).collect()
}

/// One of each so many questions, drawn: a fixed step may meet an inner loop at the same turn each
/// time.
fn one_of_each(step: usize, short: &[Question], seed: u64) -> impl Iterator<Item = Question> {
    let mut rng = Rng::for_case(seed, u64::MAX);
    short.chunks(step).map(move |stretch| stretch[rng.at(stretch.len())].clone())
}

/// Has the library answer too.
fn known((question, answer): (Question, Response)) -> Known {
    let library = Library.respond(&question);
    Known { question, answer, library }
}

/// A question with the crate's answer, if document 01 accepts it and the crate can be asked.
pub fn accepted(question: Question) -> Option<(Question, Response)> {
    if let Response::Refused(_) = Reference.respond(&question) {
        return None;
    }
    match Judge::default().respond(&question) {
        Response::Answered(answer) => Some((question, Response::Answered(answer))),
        Response::Outside(Outside::Broken(message)) => {
            // What breaks off may do so without a word here, so it is said before.
            eprintln!("differ: the crate's text failed: {message}");
            panic!("the crate's text failed");
        }
        _ => None,
    }
}
