//! One run: questions put to the sides, every value compared, and counts of what was run.

use std::time::{Duration, Instant};

use judge::{Callbacks, Judge, Outside, Walk};
use text::{Answer, Call, Case, Chunks, Question, Reply, tables};

mod largest;
mod names;
mod pairs;
mod reasons;

pub use names::NameTally;
pub use pairs::PairTally;
pub use reasons::ReasonTally;

use crate::{
    generate::{self, damage, figures},
    kinds::{self, Counts},
    reference::{chunks::chunk_list, trace::Trace},
    rng::Rng,
    side::{Library, Reference, Response, Side},
    walks::{self, Agreement},
};

/// How many disagreements are written out before the rest is only counted.
const SHOWN: usize = 5;

/// How much to run.
#[derive(Debug, Clone, Copy)]
pub struct Plan {
    pub seed: u64,
    /// The one call to run, or all.
    pub only: Option<Call>,
    /// Random questions for each leaf.
    pub cases: u64,
    /// Random whole builds, each with a second one that is alike but for load numbers.
    pub builds: u64,
    /// Random builds of 4,096 modules and 65,535 records.
    pub largest: u64,
    /// The largest P among these.
    pub largest_p: usize,
}

/// What was run of one call.
#[derive(Debug, Clone, Default)]
pub struct Tally {
    pub figures: u64,
    pub exhaustive: u64,
    pub random: u64,
    pub largest: u64,
    /// Damaged questions, by the number that refuses them.
    pub refused: [u64; 17],
    pub library: LibraryTally,
    pub seconds: Duration,
    pub large: LargeTally,
    pub pairs: PairTally,
    pub names: NameTally,
    pub reasons: ReasonTally,
}

/// What was run of random builds of 4,096 modules and 65,535 records.
#[derive(Debug, Clone, Copy, Default)]
pub struct LargeTally {
    pub builds: u64,
    /// Damaged copies.
    pub damaged: u64,
    /// The largest P among them, and how many have a P above 65,535.
    pub most_pairs: usize,
    pub many_pairs: u64,
    pub seconds: Duration,
}

/// What was put to the library of one call.
#[derive(Debug, Clone, Copy, Default)]
pub struct LibraryTally {
    /// Questions that it answered, and those that it refused.
    pub answered: u64,
    pub refused: u64,
    /// Calls that wrote where they must not, or left scratch that isn't zero.
    pub wrote: u64,
}

/// A run and what came of it.
pub struct Run {
    plan: Plan,
    pub counts: Counts,
    pub tallies: Vec<(Call, Tally)>,
    /// How builds under another walk compared: same, reordered.
    pub walks: [u64; 2],
    /// Questions that were put to the sides.
    asked: u64,
    /// Of these, those with ids that aren't UTF-8, which the crate can't be asked.
    pub not_text: u64,
    /// Those with an entry whose empty name the crate would show.
    pub empty_names: u64,
    pub disagreements: u64,
    /// What was put to the library of the present call.
    library: LibraryTally,
    /// The pairs of builds of the present call.
    pairs: PairTally,
    /// The names of chunks of the present call's builds.
    names: NameTally,
    /// The marks and the nones of the present call.
    reasons: ReasonTally,
}

impl Run {
    /// A run of which nothing is done yet.
    fn new(plan: Plan) -> Self {
        Self {
            plan,
            counts: Counts::default(),
            tallies: Vec::new(),
            walks: [0; 2],
            asked: 0,
            not_text: 0,
            empty_names: 0,
            disagreements: 0,
            library: LibraryTally::default(),
            pairs: PairTally::default(),
            names: NameTally::default(),
            reasons: ReasonTally::default(),
        }
    }

    /// Runs everything that a plan says.
    pub fn all(plan: Plan) -> Self {
        let mut run = Self::new(plan);
        for call in Call::ALL.into_iter().filter(|call| plan.only.is_none_or(|only| only == *call))
        {
            let tally = run.call(call);
            run.tallies.push((call, tally));
        }
        run
    }

    /// Everything for one call.
    fn call(&mut self, call: Call) -> Tally {
        let begin = Instant::now();
        let mut tally = Tally { figures: self.figures(call), ..Tally::default() };
        generate::exhaustive(call, &mut |question| {
            self.check(&question);
            tally.exhaustive += 1;
        });
        let count = if call == Call::Chunks { self.plan.builds } else { self.plan.cases };
        for case in 0..count {
            let mut rng = self.rng(call, case);
            let question = generate::random(call, &mut rng);
            let response = self.check(&question);
            self.check_pair(&mut rng, &question, &response);
            tally.random += 1;
        }
        for question in generate::largest::largest(call, &mut self.rng(call, u64::MAX)) {
            self.check(&question);
            tally.largest += 1;
        }
        if call == Call::Chunks {
            self.check_large_builds(&mut tally);
        }
        for case in 0..count / 2 {
            self.check_damaged(call, case, &mut tally);
        }
        tally.library = std::mem::take(&mut self.library);
        tally.pairs = std::mem::take(&mut self.pairs);
        tally.names = std::mem::take(&mut self.names);
        tally.reasons = std::mem::take(&mut self.reasons);
        tally.seconds = begin.elapsed();
        tally
    }

    /// The numbers for one case of one call.
    fn rng(&self, call: Call, case: u64) -> Rng {
        Rng::for_case(self.plan.seed + 1_000 * call as u64, case)
    }

    /// Document 01's figures, with the replies that the paper gives.
    fn figures(&mut self, call: Call) -> u64 {
        let figures = figures::figures().expect("the figures can be read");
        let mut count = 0;
        for (case, reply) in figures.into_iter().filter(|(_, reply)| reply.call == call) {
            let paper = Response::from(reply.outcome);
            let response = Reference.respond(&case.question);
            self.expect("the paper", &paper, "reference", &response, &case.question);
            match response {
                Response::Answered(_) => self.check(&case.question),
                _ => self.check_library(&case.question, &response),
            };
            count += 1;
        }
        count
    }

    /// Puts an accepted question to all sides, and hands back what the library says.
    fn check(&mut self, question: &Question) -> Response {
        self.asked += 1;
        let expected = Reference.respond(question);
        let callbacks =
            if self.asked.is_multiple_of(2) { Callbacks::Functions } else { Callbacks::Plainest };
        // Only whole builds have ties that the order of walking decides.
        let walk = if question.call() == Call::Chunks { Walk::Document } else { self.walk() };
        let judge = Judge { callbacks, walk, ..Judge::default() };
        let response = judge.respond(question);
        match response {
            Response::Outside(Outside::IdIsNoText) => self.not_text += 1,
            Response::Outside(Outside::EmptyEntryName) => self.empty_names += 1,
            _ => self.expect(Reference.name(), &expected, judge.name(), &response, question),
        }
        let response = self.check_library(question, &expected);
        if let Response::Answered(answer) = &expected {
            self.counts.note(question.call(), &kinds::of(question, answer));
            self.reasons.note(answer);
        }
        if let Question::Chunks(chunks) = question {
            self.check_walk(chunks, question);
            if let Response::Answered(Answer::Chunks(list)) = &expected {
                self.check_names(chunks, list);
            }
        }
        response
    }

    /// An order of walking other than the papers', by turns.
    fn walk(&self) -> Walk {
        match self.asked % 6 {
            0 | 1 => Walk::Own,
            2 => Walk::Inserted,
            3 => Walk::Ascending,
            4 => Walk::Descending,
            _ => Walk::Shuffled(self.asked),
        }
    }

    /// Puts a build to the crate under another order of walking.
    fn check_walk(&mut self, chunks: &Chunks, question: &Question) {
        let walk = self.walk();
        let (document, Trace { origin, .. }) = chunk_list(&tables::of_chunks(chunks));
        let judge = Judge { walk, ..Judge::default() };
        let response = judge.respond(question);
        let agreement = match &response {
            Response::Answered(Answer::Chunks(other)) => walks::compare(&document, &origin, other),
            _ => Agreement::Differs,
        };
        match agreement {
            Agreement::Same => self.walks[0] += 1,
            Agreement::Reordered => self.walks[1] += 1,
            Agreement::Differs => {
                let document = Response::Answered(Answer::Chunks(document));
                self.report(
                    Reference.name(),
                    &document,
                    &format!("crate, {walk:?}"),
                    &response,
                    question,
                );
            }
        }
    }

    /// Damages a good question and looks at the number of its refusal.
    fn check_damaged(&mut self, call: Call, case: u64, tally: &mut Tally) {
        let mut rng = self.rng(call, case ^ 1 << 40);
        let mut question = generate::plain(call, &mut rng);
        if let Some(planted) = damage::damage(&mut rng, &mut question) {
            self.check_refused(&question, planted, tally);
        }
    }

    /// A damaged question has to be refused with the number that was planted.
    fn check_refused(&mut self, question: &Question, planted: u32, tally: &mut Tally) {
        let response = Reference.respond(question);
        let planted_response = Response::Refused(planted);
        self.expect("planted", &planted_response, Reference.name(), &response, question);
        self.check_library(question, &planted_response);
        tally.refused[planted as usize] += 1;
    }

    /// The library has to say the same and to write nowhere else.
    fn check_library(&mut self, question: &Question, expected: &Response) -> Response {
        let response = Library.respond(question);
        match response {
            Response::Answered(_) => self.library.answered += 1,
            Response::Refused(_) => self.library.refused += 1,
            Response::Wrote(..) => self.library.wrote += 1,
            Response::Outside(_) => {}
        }
        self.expect(Reference.name(), expected, Library.name(), &response, question);
        response
    }

    fn expect(
        &mut self,
        one: &str,
        expected: &Response,
        other: &str,
        response: &Response,
        question: &Question,
    ) {
        if expected != response {
            self.report(one, expected, other, response, question);
        }
    }

    /// Writes a disagreement out.
    fn report(
        &mut self,
        one: &str,
        expected: &Response,
        other: &str,
        response: &Response,
        question: &Question,
    ) {
        self.disagreements += 1;
        if self.disagreements as usize <= SHOWN {
            let tag = format!("disagreement{}", self.disagreements);
            println!("{}", Case { tag: tag.clone(), question: question.clone() });
            println!("# {one}\n{}", written(&tag, question.call(), expected));
            println!("# {other}\n{}", written(&tag, question.call(), response));
        }
    }
}

/// A response in the text form.
pub fn written(tag: &str, call: Call, response: &Response) -> String {
    let reply = |outcome, warnings: &[String]| {
        Reply { tag: tag.into(), call, outcome, warnings: warnings.to_vec() }.to_string()
    };
    match response {
        Response::Answered(answer) => reply(Ok(answer.clone()), &[]),
        Response::Refused(number) => reply(Err(*number), &[]),
        Response::Wrote(outcome, warnings) => reply(outcome.clone(), warnings),
        Response::Outside(outside) => format!("# {tag} can't be asked: {outside}\n"),
    }
}
