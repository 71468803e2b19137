//! Inputs: every short one, random ones close to every boundary, the largest ones, document 01's
//! figures, and damaged copies.

pub mod build_parts;
pub mod builds;
pub mod capture;
pub mod cut;
pub mod damage;
pub mod damage_build;
pub mod damage_name;
pub mod figures;
pub mod filter;
pub mod harmless;
pub mod ids;
pub mod large_build;
pub mod large_modules;
pub mod large_records;
pub mod largest;
pub mod largest_build;
pub mod merge;
pub mod name;
pub mod names;
pub mod numbers;
pub mod records;
pub mod renumbered;
pub mod similarity;
pub mod telling;

use text::{Call, Question};

use crate::rng::Rng;

/// Takes one question after another.
pub type Visit<'a> = &'a mut dyn FnMut(Question);

/// A random question of a call, which the papers accept.
pub fn random(call: Call, rng: &mut Rng) -> Question {
    let mut question = plain(call, rng);
    if rng.one_in(6) {
        harmless::adorn(rng, &mut question);
    }
    question
}

/// A random question without any damage.
pub fn plain(call: Call, rng: &mut Rng) -> Question {
    match call {
        Call::Similarity => Question::Sim(similarity::random(rng)),
        Call::Cut => Question::Cut(cut::random(rng)),
        Call::Capture => Question::Capture(capture::random(rng)),
        Call::Filter => Question::Filter(filter::random(rng)),
        Call::Merge => Question::Merge(merge::random(rng)),
        Call::Name => Question::Name(Box::new(name::random(rng))),
        Call::Chunks => builds::question(builds::random(rng)),
    }
}

/// Every short question of a call.
pub fn exhaustive(call: Call, visit: Visit<'_>) {
    match call {
        Call::Similarity => similarity::exhaustive(visit),
        Call::Cut => cut::exhaustive(visit),
        Call::Capture => capture::exhaustive(visit),
        Call::Filter => filter::exhaustive(visit),
        Call::Merge => merge::exhaustive(visit),
        Call::Name => name::exhaustive(visit),
        Call::Chunks => builds::exhaustive(visit),
    }
}
