//! The leaf calls that are timed.

mod capture;
mod cut;
mod merge;
mod similarity;

use crate::case::Case;

/// A leaf call with its input, by a name.
pub struct Leaf {
    /// What stands in the table.
    pub label: &'static str,
    /// Makes it ready and hands it over.
    pub with: fn(&mut dyn FnMut(&mut dyn Case)),
}

/// All leaf calls.
pub const ALL: &[Leaf] = &[
    Leaf { label: "similarity, 60 bytes", with: |run| similarity::with(60, run) },
    Leaf { label: "similarity, 1,024 bytes", with: |run| similarity::with(1_024, run) },
    Leaf { label: "cut, 64 modules, ids of 24 bytes", with: |run| cut::with(64, 24, run) },
    Leaf { label: "cut, 64 modules, ids of 60 bytes", with: |run| cut::with(64, 60, run) },
    Leaf { label: "cut, 64 modules, ids of 1,024 bytes", with: |run| cut::with(64, 1_024, run) },
    Leaf { label: "cut, 4,096 modules, ids of 24 bytes", with: |run| cut::with(4_096, 24, run) },
    Leaf { label: "cut, 4,096 modules, ids of 60 bytes", with: |run| cut::with(4_096, 60, run) },
    Leaf {
        label: "cut, 4,096 modules, ids of 1,024 bytes",
        with: |run| cut::with(4_096, 1_024, run),
    },
    Leaf { label: "merge, 64 subgroups", with: |run| merge::with(64, run) },
    Leaf { label: "merge, 1,024 subgroups", with: |run| merge::with(1_024, run) },
    Leaf { label: "merge, 4,096 subgroups", with: |run| merge::with(4_096, run) },
    Leaf { label: "capture along 4,096 modules, a record each", with: capture::along },
    Leaf { label: "capture of a tree, 64 records for each inner module", with: capture::tree },
    Leaf { label: "capture of a graph, 16 records for each module", with: capture::graph },
    Leaf { label: "capture, all share one chain of 65,535 records", with: capture::shared },
];
