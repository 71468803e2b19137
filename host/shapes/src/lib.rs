//! The builds that are timed, and whose stack is measured.
#![forbid(unsafe_code)]

mod aware;
mod flat;
mod graph;
mod limits;
mod names;
mod pieces;
mod tree;

use text::Build;

pub use graph::chain;
pub use limits::{chained, scattered};

/// A shape of build.
pub struct Shape {
    /// How the command line calls it.
    pub key: &'static str,
    /// What stands in the table.
    pub label: &'static str,
    /// The build with so many modules.
    pub build: fn(u32) -> Build,
    /// The counts of modules that it is timed at.
    pub counts: &'static [u32],
}

/// Where nothing else is said.
const BOTH: &[u32] = &[900, 4_096];
/// What has its size from the limits.
const LARGEST: &[u32] = &[4_096];

/// A shape at both counts.
const fn shape(key: &'static str, label: &'static str, build: fn(u32) -> Build) -> Shape {
    Shape { key, label, build, counts: BOTH }
}

/// All shapes.
pub const ALL: &[Shape] = &[
    shape("flat", "flat", flat::flat),
    shape("random", "flat, random load order", flat::random),
    shape("unlimited", "flat, no max_size", flat::unlimited),
    shape("long", "flat, long ids", flat::long_ids),
    shape("plain", "flat, one group and name", flat::plain),
    shape("deep", "deep", graph::deep),
    shape("aware", "entries-aware, recursion", graph::aware),
    shape("groups", "16 groups", flat::sixteen_groups),
    shape("pieces", "one set in many pieces", pieces::one_set),
    shape("four", "four groups in many pieces", pieces::four_groups),
    shape("names", "a name per module, flat", names::flat),
    shape("deep-names", "a name per module, deep", names::deep),
    shape("different", "all bits different, no merge", aware::all_different),
    shape("merge16", "merge of many kinds, 16 entries", aware::merge_16),
    shape("merge256", "merge of many kinds, 256 entries", aware::merge_256),
    Shape { key: "limits", label: "all limits", build: limits::all, counts: LARGEST },
    Shape {
        key: "chain",
        label: "one chain of 65,535 records, shared by all",
        build: limits::shared_chain,
        counts: LARGEST,
    },
];

/// The shape that the command line names.
pub fn by_key(key: &str) -> Option<&'static Shape> {
    ALL.iter().find(|shape| shape.key == key)
}
