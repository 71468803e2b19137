//! Pairs of builds that are alike but for load numbers: the library has to answer the same list.

use text::{Answer, Build, Case, ChunkList, Chunks, Damage, Question, tables};

use super::{Run, SHOWN};
use crate::{
    generate::renumbered::{Renumbered, renumbered},
    rng::Rng,
    side::Response,
};

/// What was run of such pairs.
#[derive(Debug, Clone, Copy, Default)]
pub struct PairTally {
    pub pairs: u64,
    /// Of these, pairs with a new chunk, with several modules in one, with one above its maximum, and
    /// with another count of dependency records.
    pub chunks: u64,
    pub chains: u64,
    pub marked: u64,
    pub records: u64,
    /// Pairs whose lists differ.
    pub differ: u64,
}

impl Run {
    /// Puts a second build to all sides, and holds the library's list of it against that of the
    /// first. A leaf has no load numbers to change.
    pub(super) fn check_pair(&mut self, rng: &mut Rng, question: &Question, response: &Response) {
        let Question::Chunks(first) = tables::effective(question) else { return };
        let Response::Answered(Answer::Chunks(list)) = response else { return };
        let second = renumbered(rng, &first.build);
        let areas = lent(rng, &second.build);
        self.compare_pair(&first.build, list, second, areas);
    }

    /// The list of a second build against that of the first.
    fn compare_pair(
        &mut self,
        first: &Build,
        list: &ChunkList,
        second: Renumbered,
        areas: Option<Vec<usize>>,
    ) {
        let Renumbered { build, numbers } = second;
        self.pairs.pairs += 1;
        self.pairs.chunks += u64::from(!list.chunks.is_empty());
        self.pairs.chains += u64::from(list.chunks.iter().any(|chunk| chunk.modules.len() > 1));
        self.pairs.marked += u64::from(list.chunks.iter().any(|chunk| chunk.mark > 0));
        self.pairs.records += u64::from(build.records.len() != first.records.len());
        let damage = Damage { areas, ..Damage::default() };
        let question = Question::Chunks(Box::new(Chunks { build, damage }));
        let expected = Response::Answered(Answer::Chunks(translated(list, &numbers)));
        let response = self.check(&question);
        if response != expected {
            self.pairs.differ += 1;
            if (self.disagreements as usize) < SHOWN {
                let chunks = Chunks { build: first.clone(), damage: Damage::default() };
                let question = Question::Chunks(Box::new(chunks));
                println!("{}", Case { tag: "first".into(), question });
            }
            let (one, other) = ("library, first build, translated", "library, second build");
            self.report(one, &expected, other, &response, &question);
        }
    }
}

/// Lengths of the areas: exactly what the build needs, or some room to spare.
fn lent(rng: &mut Rng, build: &Build) -> Option<Vec<usize>> {
    let n = build.modules.len();
    rng.maybe(2, |_| vec![n, n, n, tables::scratch_need(build)])
}

/// A list with its modules in the numbers of the second build.
fn translated(list: &ChunkList, numbers: &[u32]) -> ChunkList {
    let mut second = list.clone();
    for (old, new) in numbers.iter().enumerate() {
        second.chunk_of[*new as usize] = list.chunk_of[old];
    }
    for module in second.chunks.iter_mut().flat_map(|chunk| &mut chunk.modules) {
        *module = numbers[*module as usize];
    }
    second
}

#[cfg(test)]
mod tests {
    use text::{Answer, Build, Call, ChunkList, Question};

    use super::lent;
    use crate::{
        generate::{self, renumbered::renumbered},
        rng::Rng,
        run::{Plan, Run},
        side::{Library, Response, Side},
    };

    /// A build that is drawn, and the library's list of it.
    fn drawn(case: u64) -> (Build, ChunkList, Rng) {
        let mut rng = Rng::for_case(13, case);
        let question = generate::plain(Call::Chunks, &mut rng);
        let Response::Answered(Answer::Chunks(list)) = Library.respond(&question) else {
            unreachable!("a whole build is accepted")
        };
        let Question::Chunks(chunks) = question else {
            unreachable!("a whole build was asked for")
        };
        (chunks.build, list, rng)
    }

    /// How many of a few pairs differ, if something is done to each second build that has a chunk.
    fn differ(change: fn(&mut Build, usize)) -> (u64, u64) {
        differ_from(|_| {}, change)
    }

    /// The same, if something is done to the first build's list too.
    fn differ_from(spoil: fn(&mut ChunkList), change: fn(&mut Build, usize)) -> (u64, u64) {
        let plan = Plan { seed: 1, only: None, cases: 0, builds: 0, largest: 0, largest_p: 0 };
        let mut run = Run::new(plan);
        for case in 0..400 {
            let (build, mut list, mut rng) = drawn(case);
            spoil(&mut list);
            let Some(chunk) = list.chunks.first() else { continue };
            let mut second = renumbered(&mut rng, &build);
            change(&mut second.build, second.numbers[chunk.modules[0] as usize] as usize);
            let areas = lent(&mut rng, &second.build);
            run.compare_pair(&build, &list, second, areas);
        }
        assert_eq!(run.disagreements, run.pairs.differ);
        (run.pairs.differ, run.pairs.pairs)
    }

    #[test]
    fn a_pair_is_the_same_once_translated() {
        let (differ, pairs) = differ(|_, _| {});
        assert!(pairs > 100, "{pairs}");
        assert_eq!(differ, 0);
    }

    /// A size that is one lower in the second build makes its chunk another one.
    #[test]
    fn a_changed_size_is_noticed() {
        let lower = |build: &mut Build, module: usize| {
            let size = &mut build.modules[module].size;
            *size = if *size > 0 { *size - 1 } else { 1 };
        };
        let (differ, pairs) = differ(lower);
        assert!(pairs > 100, "{pairs}");
        assert_eq!(differ, pairs);
    }

    /// A mark that is another one in the first build is noticed.
    #[test]
    fn a_changed_mark_is_noticed() {
        let other = |list: &mut ChunkList| {
            list.chunks.iter_mut().take(1).for_each(|chunk| chunk.mark = (chunk.mark + 1) % 3);
        };
        let (differ, pairs) = differ_from(other, |_, _| {});
        assert!(pairs > 100, "{pairs}");
        assert_eq!(differ, pairs);
    }

    /// A module that leaves its chunk is noticed too.
    #[test]
    fn a_changed_flag_is_noticed() {
        let (differ, pairs) = differ(|build, module| build.modules[module].flags = 7);
        assert_eq!(differ, pairs);
    }
}
