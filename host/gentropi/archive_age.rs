// Whether the archive is older than a source of the library. The build script and a test include this file.

use std::{
    fs, io,
    path::{Path, PathBuf},
    time::SystemTime,
};

/// A source of the library that is newer than the archive, if there is one: the list of crates, or a
/// file of theirs. Edits that must fail are no part of the library, and neither is what the toolchain
/// made of a crate, in its folder `out`.
pub fn newer_source(archive: &Path, root: &Path) -> io::Result<Option<PathBuf>> {
    let built = fs::metadata(archive)?.modified()?;
    let mut left = vec![root.join("crates.txt"), root.join("crates")];
    while let Some(path) = left.pop() {
        if is_made(&path, root) {
            continue;
        }
        if path.is_dir() {
            for entry in fs::read_dir(&path)? {
                left.push(entry?.path());
            }
        } else if is_newer(&path, built)? {
            return Ok(Some(path));
        }
    }
    Ok(None)
}

fn is_made(path: &Path, root: &Path) -> bool {
    let of_crate = path.parent().and_then(Path::parent) == Some(root.join("crates").as_path());
    of_crate && path.ends_with("out")
}

fn is_newer(file: &Path, built: SystemTime) -> io::Result<bool> {
    let is_edit = file.extension().is_some_and(|extension| extension == "edit");
    Ok(!is_edit && fs::metadata(file)?.modified()? > built)
}
