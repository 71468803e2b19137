//! Stand-in for `rustc_hash`: a map and a set whose iteration order can be chosen while the
//! program runs (see [`order`]).
//!
//! Assumes: the crate's text may rely on nothing about the order in which a hash map or a hash
//! set is walked. The order called `Own` is that of the standard library's table under a
//! multiply-and-rotate hash modelled on the one that `rustc_hash` 2 publishes; should the two
//! hashes differ, `Own` is one more arbitrary order.
//!
//! Choosing an order costs time: each key is noted a second time, and a walk is collected first.
//! Where time is measured, `plain_hash` takes the place of this crate.
#![forbid(unsafe_code)]

mod hasher;
mod map;
pub mod order;
mod set;

pub use hasher::{FxBuildHasher, FxHasher};
pub use map::FxHashMap;
pub use set::FxHashSet;
