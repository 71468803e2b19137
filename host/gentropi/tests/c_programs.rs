//! Programs in C that include the header and link the archive: compiled without a warning, and run.

use std::{
    fs,
    path::{Path, PathBuf},
    process::Command,
};

/// Where programs are made.
fn made(name: &str) -> PathBuf {
    Path::new(env!("CARGO_TARGET_TMPDIR")).join(name)
}

/// The package's folder.
fn package() -> &'static Path {
    Path::new(env!("CARGO_MANIFEST_DIR"))
}

/// Compiles a source and runs the program; what it printed, if it succeeded.
fn printed(source: &Path, name: &str) -> String {
    let program = made(name);
    let mut compiler = Command::new("gcc");
    compiler.args(["-std=c99", "-Wall", "-Wextra", "-Wconversion", "-pedantic", "-Werror", "-O1"]);
    compiler.arg("-I").arg(package().join("include")).arg(source);
    compiler.arg(env!("GENTROPI_ARCHIVE")).arg("-o").arg(&program);
    let compiled = compiler.output().expect("there is gcc");
    assert!(compiled.status.success(), "{}", String::from_utf8_lossy(&compiled.stderr));
    let ran = Command::new(&program).output().expect("the program can be run");
    let printed = String::from_utf8(ran.stdout).expect("the program prints UTF-8");
    assert!(ran.status.success(), "{printed}");
    printed
}

/// The first fenced block of a kind in a page.
fn fenced<'a>(page: &'a str, kind: &str) -> &'a str {
    let (_, rest) = page.split_once(&format!("\n```{kind}\n")).expect("there is such a block");
    rest.split_once("```").map_or(rest, |(block, _)| block)
}

#[test]
fn every_call_from_c() {
    assert_eq!(printed(&package().join("tests/c/calls.c"), "calls"), "0 failures\n");
}

#[test]
fn the_example_of_the_page_for_hosts() {
    let page = fs::read_to_string(package().join("../../docs/HOSTS.md")).expect("the page");
    let source = made("example.c");
    fs::write(&source, fenced(&page, "c")).expect("the example can be written");
    assert_eq!(printed(&source, "example"), fenced(&page, "text"));
}
