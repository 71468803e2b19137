//! Stand-in for `rolldown_utils`: bit sets, ordered maps and sets, and two functions for names.
//!
//! Assumes: two bit sets of one build are equal, and hash alike, exactly when they hold the same
//! bits; `union` adds the other's bits; `index_of_one` lists the bits that are set, upwards. The hash
//! of a long name is the one that is handed in, whatever the name is, or else another one than the
//! crate's.
#![forbid(unsafe_code)]

mod bit_set;
pub mod indexmap;
pub mod xxhash;

pub use bit_set::{BitSet, IndexBitSet};

/// Joins texts.
#[macro_export]
macro_rules! concat_string {
    ($($part:expr),* $(,)?) => {{
        let mut whole = String::new();
        $(whole.push_str(AsRef::<str>::as_ref(&$part));)*
        whole
    }};
}
