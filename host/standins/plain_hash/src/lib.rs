//! Stand-in for `rustc_hash` where time is measured: the standard library's map and set under the
//! same hash as in the other stand-in, and nothing besides.
//!
//! Assumes: `rustc_hash` is no more than that. An order of walking can be asked for, as in the
//! other stand-in, but isn't heeded.
#![forbid(unsafe_code)]

pub use rustc_hash::{FxBuildHasher, FxHasher, order};

/// The standard library's map.
pub type FxHashMap<K, V> = std::collections::HashMap<K, V, FxBuildHasher>;

/// The standard library's set.
pub type FxHashSet<T> = std::collections::HashSet<T, FxBuildHasher>;
