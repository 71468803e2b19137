//! Finds the proved static library and has it linked; takes the Rust lines from README.

mod archive_age;

use std::{
    env, fs,
    path::{Path, PathBuf},
    process::ExitCode,
};

/// Names the folder of the archive, if it isn't the repository's own.
const VARIABLE: &str = "GENTROPI_LIB_DIR";

fn main() -> ExitCode {
    println!("cargo::rerun-if-env-changed={VARIABLE}");
    if env::var("CARGO_CFG_TARGET_ARCH").is_ok_and(|machine| machine != "x86_64") {
        return fail(&["libgentropi.a is compiled for x86-64 and links into no other program"]);
    }
    let root = root();
    let own = root.join("target").join("staticlib");
    let folder = named_folder().unwrap_or_else(|| own.clone());
    let archive = folder.join("libgentropi.a");
    println!("cargo::rerun-if-changed={}", archive.display());
    if !archive.is_file() {
        return fail(&[
            &format!("the proved library is missing: {}", archive.display()),
            "run `./staticlib` at the root of the repository, which proves and builds it",
            &format!("or name the folder that has it in {VARIABLE}, by its full path"),
        ]);
    }
    // The tests are told which archive was linked, and whether its age says anything.
    println!("cargo::rustc-env=GENTROPI_ARCHIVE={}", archive.display());
    let is_own = folder.canonicalize().ok() == own.canonicalize().ok();
    println!("cargo::rustc-env=GENTROPI_ARCHIVE_IS_OWN={}", if is_own { "yes" } else { "no" });
    if is_own {
        warn_of_age(&archive, &root);
    }
    println!("cargo::rustc-link-search=native={}", folder.display());
    println!("cargo::rustc-link-lib=static=gentropi");
    match take_readme_lines(&root.join("README.md")) {
        Ok(()) => ExitCode::SUCCESS,
        Err(error) => fail(&[&format!("the lines of README can't be kept: {error}")]),
    }
}

/// The root of the repository.
fn root() -> PathBuf {
    let package = PathBuf::from(env::var_os("CARGO_MANIFEST_DIR").unwrap_or_default());
    package.ancestors().nth(2).map(PathBuf::from).unwrap_or_default()
}

/// The folder that the variable names.
fn named_folder() -> Option<PathBuf> {
    env::var_os(VARIABLE).filter(|named| !named.is_empty()).map(PathBuf::from)
}

/// Says so if the repository's own archive is older than a source; a test fails then.
fn warn_of_age(archive: &Path, root: &Path) {
    println!("cargo::rerun-if-changed={}", root.join("crates.txt").display());
    println!("cargo::rerun-if-changed={}", root.join("crates").display());
    if let Ok(Some(source)) = archive_age::newer_source(archive, root) {
        let source = source.strip_prefix(root).unwrap_or(&source);
        println!("cargo::warning=libgentropi.a is older than {}", source.display());
        println!("cargo::warning=run `./staticlib` at the root of the repository");
    }
}

/// Keeps the Rust lines of README for a doc test; without a README there are none.
fn take_readme_lines(readme: &Path) -> std::io::Result<()> {
    println!("cargo::rerun-if-changed={}", readme.display());
    let text = fs::read_to_string(readme).unwrap_or_default();
    let fenced = text.split("```").skip(1).step_by(2).filter(|block| block.starts_with("rust\n"));
    let kept: String = fenced.map(|block| format!("```{block}```\n\n")).collect();
    let folder = PathBuf::from(env::var_os("OUT_DIR").unwrap_or_default());
    fs::write(folder.join("use_from_rust.md"), kept)
}

/// Shows the lines as errors of this package.
fn fail(lines: &[&str]) -> ExitCode {
    for line in lines {
        println!("cargo::error={line}");
    }
    ExitCode::FAILURE
}
