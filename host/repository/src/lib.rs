//! The texts and scripts of the repository, read so that tests can hold them to each other.
//!
//! Nothing here links the library, so these tests run before anything is proved.
#![forbid(unsafe_code)]
#![warn(missing_docs)]

mod functions;
mod scratch_folder;

use std::{
    fs,
    path::{Path, PathBuf},
};

pub use functions::{Function, declared, in_c, in_rust};
pub use scratch_folder::{ScratchFolder, command};

/// The root of the repository.
pub fn root() -> PathBuf {
    let package = Path::new(env!("CARGO_MANIFEST_DIR"));
    package.ancestors().nth(2).expect("the package stands in host/").to_path_buf()
}

/// A text of the repository.
pub fn read(path: &str) -> String {
    fs::read_to_string(root().join(path)).unwrap_or_else(|error| panic!("{path}: {error}"))
}

/// The files of a folder of the repository that end so, folders below it included.
pub fn files(folder: &str, end: &str) -> Vec<String> {
    let mut found = Vec::new();
    let mut folders = vec![folder.to_string()];
    while let Some(folder) = folders.pop() {
        for entry in fs::read_dir(root().join(&folder)).expect("the folder can be read") {
            let entry = entry.expect("the folder can be read");
            let path = format!("{folder}/{}", entry.file_name().to_string_lossy());
            match entry.path().is_dir() {
                true => folders.push(path),
                false => found.extend(Some(path).filter(|path| path.ends_with(end))),
            }
        }
    }
    found.sort();
    found
}
