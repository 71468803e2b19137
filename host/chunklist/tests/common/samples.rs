//! The samples of the repository.

use std::{fs, path::PathBuf};

/// The path of a sample file.
pub fn path(name: &str) -> String {
    let path = PathBuf::from(env!("CARGO_MANIFEST_DIR")).join("../../samples").join(name);
    path.to_str().expect("a path of UTF-8").into()
}

/// What stands in a sample file.
pub fn content(name: &str) -> String {
    fs::read_to_string(path(name)).expect("the sample can be read")
}
