//! The archive that is linked is not older than the sources of the library.

#[path = "../archive_age.rs"]
mod age;

use std::{
    fs::{self, File},
    path::{Path, PathBuf},
    time::{Duration, SystemTime},
};

use age::newer_source;

#[test]
fn the_linked_archive_is_not_older_than_its_sources() {
    let (archive, is_own) = (env!("GENTROPI_ARCHIVE"), env!("GENTROPI_ARCHIVE_IS_OWN"));
    if is_own == "no" {
        // Whoever names another folder says by that which archive is meant: a copy's age says nothing.
        println!("{archive} is not the repository's own, and its age is not compared");
        return;
    }
    let root = Path::new(env!("CARGO_MANIFEST_DIR")).join("../..");
    let newer = newer_source(Path::new(archive), &root).expect("the sources can be looked at");
    let newer = newer.map(|source| source.display().to_string());
    assert_eq!(newer, None, "{archive} is older than this source: run `./staticlib`");
}

/// A repository in small, whose files are some hours old: the archive three, the sources four.
struct Small(PathBuf);

impl Small {
    fn new(name: &str) -> Self {
        let small = Self(Path::new(env!("CARGO_TARGET_TMPDIR")).join(name));
        let _ = fs::remove_dir_all(&small.0);
        for folder in ["must-fail", "out", "proofs/out"] {
            fs::create_dir_all(small.0.join("crates/a").join(folder)).expect("a folder");
        }
        small.file("libgentropi.a", 3);
        for source in ["crates.txt", "crates/a/source", "crates/a/must-fail/wrong.edit"] {
            small.file(source, 4);
        }
        small
    }

    /// Writes a file, and says that it was written so many hours ago.
    fn file(&self, name: &str, hours: u64) {
        let file = File::create(self.0.join(name)).expect("a file");
        let then = SystemTime::now() - Duration::from_secs(3_600 * hours);
        file.set_modified(then).expect("its time can be set");
    }

    fn newer(&self) -> Option<PathBuf> {
        let found = newer_source(&self.0.join("libgentropi.a"), &self.0).expect("files");
        found.map(|source| source.strip_prefix(&self.0).expect("a source").to_path_buf())
    }
}

#[test]
fn a_newer_source_is_named() {
    let small = Small::new("newer-source");
    assert_eq!(small.newer(), None);
    small.file("crates/a/source", 2);
    assert_eq!(small.newer(), Some("crates/a/source".into()));
}

#[test]
fn a_newer_list_of_crates_is_named() {
    let small = Small::new("newer-list");
    small.file("crates.txt", 2);
    assert_eq!(small.newer(), Some("crates.txt".into()));
}

#[test]
fn a_newer_edit_is_no_source() {
    let small = Small::new("newer-edit");
    small.file("crates/a/must-fail/wrong.edit", 2);
    assert_eq!(small.newer(), None);
}

#[test]
fn what_was_made_newer_is_no_source() {
    let small = Small::new("newer-out");
    small.file("crates/a/out/made", 2);
    assert_eq!(small.newer(), None);
    small.file("crates/a/proofs/out/source", 2);
    assert_eq!(small.newer(), Some("crates/a/proofs/out/source".into()));
}
