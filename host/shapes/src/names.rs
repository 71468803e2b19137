//! Builds with a name for each module.

use text::{Build, drawn::shuffled};

use super::{flat, graph};

/// Sets of one module.
pub fn flat(count: u32) -> Build {
    named(flat::plain(count))
}

/// Sets of whatever a module reaches.
pub fn deep(count: u32) -> Build {
    named(graph::layered(count))
}

/// All modules matched, each under a name of its own.
fn named(mut build: Build) -> Build {
    let count = build.modules.len() as u32;
    build.names = u64::from(count);
    build.answers[0] = shuffled(40, count).into_iter().map(|name| 2 + name).collect();
    build
}
