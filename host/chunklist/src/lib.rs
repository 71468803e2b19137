//! Puts calls that are written as text to the proved library.
//!
//! [`ask`] lends the areas, calls, and looks at what was written; [`answer_all`] does so for each
//! case of a text. The program `chunklist` reads the text from a file or from standard input.
//!
//! ```
//! let case = &text::read_cases("sim first 61 6a\n").unwrap()[0];
//! let asked = chunklist::ask(&case.question);
//! assert_eq!(asked.outcome, Ok(text::Answer::Sim(1)));
//! assert!(asked.warnings.is_empty());
//! ```
#![forbid(unsafe_code)]
#![warn(missing_docs)]

mod answer_all;
mod area;
mod ask;
mod room;
pub mod tree;

pub use answer_all::{Messages, answer_all};
pub use area::{Lent, Pattern};
pub use ask::{
    Asked, ask,
    chunks::{AskedBuild, BuildAreas, ReadyBuild, ask_build, group, raw_tables},
};
