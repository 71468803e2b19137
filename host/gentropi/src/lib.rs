//! Safe Rust over the proved library of the chunk list.
//!
//! The library groups the modules of a build by the rules of manual code splitting. It is written
//! in Rattle and proved: every call may be handed anything, answers what its contract says, and
//! stays within what it is lent. So nothing here tests a length, a number or a limit; what doesn't
//! fit comes back as a [`Refusal`], which carries its number, and the lent areas are untouched.
//!
//! | call | asks | answers |
//! |---|---|---|
//! | [`similarity`] | how alike two stable ids are | a score |
//! | [`cut`] | where an oversized list of modules is cut in two | a [`Cut`]: where, or why not |
//! | [`filter`] | whether a module passes a group's static limits | yes or no |
//! | [`capture`] | what a module captures along its dependencies | a mark for each module |
//! | [`merge`] | which small subgroups join which | numbers, sizes and entry bits |
//! | [`chunks`] | how a whole build is divided | the new chunks, each with a [`Mark`] |
//! | [`chunk_name`] | what a chunk is called | its name |
//!
//! Areas are lent by the caller and may be longer than needed: what lies past the end keeps its
//! content. [`capture_to_vec`], [`merge_to_vec`], [`chunks_to_vec`] and [`chunk_name_to_vec`] lend areas
//! of their own. [`raw`] has the calls with counts apart from lengths, and [`sys`] the C functions.
//! [`needs`] says how long areas have to be and how much stack a call takes: [`chunks`] some 500 KB, the
//! others little.
//!
//! # Example
//!
//! ```
//! use gentropi::{Cut, CutPoint, IdBuf, Refusal, cut, similarity};
//!
//! # fn main() -> Result<(), Refusal> {
//! assert_eq!(similarity(b"src/a", b"src/b")?, 49);
//!
//! // Three modules of 10 bytes each, none too small, 20 bytes at most on a side.
//! let ids = IdBuf::from_iter(["ui/a", "ui/b", "vendor/b"]);
//! let point = CutPoint { index: 2, left_size: 20.0, right_size: 10.0 };
//! assert_eq!(cut(ids.as_ids(), &[10, 10, 10], 0.0, 20.0)?, Cut::At(point));
//! // None is allowed if both sides have to reach 20.
//! assert_eq!(cut(ids.as_ids(), &[10, 10, 10], 20.0, 20.0)?, Cut::NoneAllowed);
//!
//! // A limit that says nothing is refused, with a number and a meaning.
//! let refusal = cut(ids.as_ids(), &[10, 10, 10], f64::NAN, 20.0).unwrap_err();
//! assert_eq!(refusal, Refusal::NAN);
//! assert_eq!(refusal.number(), 8);
//! assert_eq!(refusal.to_string(), "refusal 8: a limit or a threshold is NaN");
//! # Ok(())
//! # }
//! ```
//!
//! # Linking
//!
//! The build needs `libgentropi.a`, which `./staticlib`, run at the root of the
//! repository, proves and writes to `target/staticlib`. If it is older than a source of the library,
//! the build warns and a test fails. The variable `GENTROPI_LIB_DIR` names another folder for it;
//! whether an archive there belongs to these sources can't be told by its age, and isn't tested.
//! For other languages there is a C header, `include/gentropi.h`.
#![deny(unsafe_code)]
#![warn(missing_docs)]

mod capture;
mod chunk_name;
mod chunks;
mod cut;
mod filter;
mod groups;
mod ids;
pub mod limits;
mod mark;
mod merge;
pub mod needs;
#[allow(unsafe_code)]
pub mod raw;
mod refusal;
#[allow(unsafe_code)]
pub mod sys;

pub use capture::{Chains, Modules, capture, capture_to_vec, flag};
pub use chunk_name::{ChunkToName, chunk_name, chunk_name_to_vec};
pub use chunks::{Build, Chunk, ChunksAreas, chunks, chunks_to_vec};
pub use cut::{Cut, CutPoint, cut};
pub use filter::{FilteredModule, StaticFilter, filter};
pub use groups::{Group, GroupBuf, Options};
pub use ids::{IdBuf, Ids, similarity};
pub use mark::Mark;
pub use merge::{EntryBits, MergeAreas, Merged, Subgroups, merge, merge_to_vec};
pub use refusal::Refusal;

/// The Rust lines of the repository's README, compiled and run as they stand.
#[cfg(doctest)]
#[doc = include_str!(concat!(env!("OUT_DIR"), "/use_from_rust.md"))]
pub struct UseFromRust;
