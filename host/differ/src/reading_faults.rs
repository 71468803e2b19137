//! Deliberate faults of the reading of the papers, held against the recorded builds, cuts and refusals.

use std::{
    fs,
    panic::{AssertUnwindSafe, catch_unwind},
    path::Path,
};

use text::{Answer, Call, Question, read_cases, read_replies};

use crate::{
    generate::{self, damage},
    reference::{
        CaseResult, case, fault_list,
        rules::{ReadingFault, Rules, SOUND},
    },
    rng::Rng,
};

/// The seed of the random builds.
const SEED: u64 = 30_001;

/// How many recorded cases notice a fault, and how many of the random ones if there are any.
pub struct Fared {
    pub fault: ReadingFault,
    pub builds: usize,
    pub cuts: usize,
    pub refusals: usize,
    pub random: Option<usize>,
}

impl Fared {
    /// How many recorded cases notice it.
    pub fn recorded(&self) -> usize {
        self.builds + self.cuts + self.refusals
    }
}

/// A whole build or a cut with what comes of it by the papers.
struct Known {
    question: Question,
    sound: CaseResult,
}

/// Puts the recorded cases of a folder, and so many random ones, to the reading with each fault.
pub fn all(folder: &Path, cases: u64) -> Result<Vec<Fared>, String> {
    let (builds, cuts) = (recorded(folder, "builds")?, recorded(folder, "leaves")?);
    let refusals = recorded(folder, "refusals")?;
    let random: Vec<Known> = (0..cases).map(random).collect();
    let count = |fault, known: &[Known]| {
        known.iter().filter(|k| notices(fault, &k.question, &k.sound)).count()
    };
    let fared = |fault| Fared {
        fault,
        builds: count(fault, &builds),
        cuts: count(fault, &cuts),
        refusals: count(fault, &refusals),
        random: (cases > 0).then(|| count(fault, &random)),
    };
    Ok(fault_list::all().into_iter().map(fared).collect())
}

/// Whether a fault changes what comes of a case: its answer, or what an area lent to a build holds.
pub fn notices(fault: ReadingFault, question: &Question, sound: &CaseResult) -> bool {
    let faulty = catch_unwind(AssertUnwindSafe(|| case(question, Rules::with(fault))));
    match faulty {
        Ok(faulty) => faulty != *sound,
        // A condition may rely on those below it; breaking off before its turn tells nothing.
        Err(_) => !matches!(fault, ReadingFault::OrderExchanged(_)),
    }
}

/// The whole builds and the cuts of a recorded file; the reading has to give their recorded answers.
fn recorded(folder: &Path, name: &str) -> Result<Vec<Known>, String> {
    let read = |file: String| {
        let path = folder.join(file);
        fs::read_to_string(&path).map_err(|error| format!("{}: {error}", path.display()))
    };
    let said = |error: text::TextError| format!("{name}: {error}");
    let cases = read_cases(&read(format!("{name}.txt"))?).map_err(said)?;
    let replies = read_replies(&read(format!("{name}.answers.txt"))?).map_err(said)?;
    let mut all = Vec::new();
    for (recorded, reply) in cases.into_iter().zip(replies) {
        let question = recorded.question;
        if !matches!(question, Question::Chunks(_) | Question::Cut(_)) {
            continue;
        }
        let sound = case(&question, SOUND);
        if outcome(&sound) != reply.outcome {
            return Err(format!("{name}: the reading doesn't give the answer to {}", recorded.tag));
        }
        all.push(Known { question, sound });
    }
    Ok(all)
}

/// The answer or the number of the refusal.
fn outcome(result: &CaseResult) -> Result<Answer, u32> {
    match result {
        CaseResult::Build(build) => build.outcome.clone().map(Answer::Chunks),
        CaseResult::Leaf(outcome) => outcome.clone(),
    }
}

/// A random build, damaged every second time.
fn random(number: u64) -> Known {
    let mut rng = Rng::for_case(SEED, number);
    let mut question = generate::random(Call::Chunks, &mut rng);
    if number % 2 == 1 {
        question = generate::plain(Call::Chunks, &mut rng);
        damage::damage(&mut rng, &mut question);
    }
    Known { sound: case(&question, SOUND), question }
}

#[cfg(test)]
mod tests {
    use std::path::PathBuf;

    use super::all;

    #[test]
    fn the_recorded_cases_notice_every_fault() {
        let folder = PathBuf::from(env!("CARGO_MANIFEST_DIR")).join("../corpus");
        for fared in all(&folder, 0).expect("the corpus can be read") {
            assert!(fared.recorded() > 0, "{:?}", fared.fault);
        }
    }
}
