//! Copies of the crate's text with one deliberate fault each.
//!
//! They are made at build time from the text with the probe; the build fails if a text that is
//! to be replaced doesn't stand exactly once.
#![forbid(unsafe_code)]

/// The copies.
pub mod copies {
    include!(concat!(env!("OUT_DIR"), "/copies.rs"));
}
mod table;

// What the copies find at the root of their crate.
pub use judge::{
    CrateText, RemainingSubgroup, SharedOptions, World, block_on, chunk_graph, probe, stages,
    types, utils,
};
pub use table::FaultText;

/// A fault, and the copy that has it.
pub struct Fault {
    pub change: &'static FaultText,
    pub text: &'static CrateText,
}

/// All faults, leaves first.
pub fn all() -> Vec<Fault> {
    let texts: &[&'static CrateText] = include!(concat!(env!("OUT_DIR"), "/texts.rs"));
    table::FAULTS.iter().zip(texts).map(|(change, text)| Fault { change, text }).collect()
}
