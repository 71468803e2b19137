//! The crate's own text as the judge.
//!
//! `manual_code_splitting.rs`, `chunk_ext.rs`, `chunk_graph.rs` and `module_id_matcher.rs` of
//! rolldown 1.2.16 are compiled unchanged from the folder that `ROLLDOWN_SRC` names. What they
//! lean on is supplied by stand-ins: the crates below `standins/`, and here the modules
//! [`stages`], [`types`] and [`utils`]. [`Judge`] asks the text.
#![forbid(unsafe_code)]

mod bits;
pub mod block_on;
pub mod copies;
mod crate_text;
mod groups;
mod judge;
mod leaves;
mod marks;
mod names;
pub mod probe;
pub mod stages;
pub mod timed;
pub mod types;
pub mod utils;
mod whole;
mod world;

// `chunk_graph`, the crate's own file.
include!(concat!(env!("OUT_DIR"), "/chunk_graph.rs"));

use std::sync::Arc;

pub use crate_text::{CrateText, RemainingSubgroup};
pub use groups::name_text;
pub use judge::{Callbacks, Judge, Outside, Walk};
use rolldown_common::NormalizedBundlerOptions;
pub use world::World;

/// The options, as the crate shares them.
pub type SharedOptions = Arc<NormalizedBundlerOptions>;
