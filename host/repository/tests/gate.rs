//! `.ci/run` with stand-ins for `rt` and `cargo`: what runs when, its last line and its status.

use std::process::Output;

use repository::{ScratchFolder, read};

/// Says what it was asked, and fails where a file of that name says with which status. As
/// `rt ci` does, it takes each folder out/ away, builds libraries without a stamp, and gives back
/// what was kept.
const RT: &str = "#!/bin/sh
root=$(dirname \"$0\")/..
if [ \"$1\" = doc ]; then echo \"$root/kit/START-HERE.md\" && exit; fi
echo \"rt $*\" >>\"$root/log\"
if [ \"$1\" = ci ]; then rm -rf crates/lists/out && mkdir -p crates/lists/out/rlib; fi
if [ -f \"$root/kept\" ]; then : >\"$root/crates/lists/out/rlib/stamp\"; fi
if [ \"$1\" = lib ]; then mkdir -p out && echo rt >out/libgentropi.a; fi
echo 'rt: proved'
status=$(cat \"$root/fail-$1\" 2>/dev/null)
[ \"$1\" != ci ] || [ -n \"$status\" ] || cat \"$root/ok\" 2>/dev/null
[ \"$1\" != ci ] || echo \"7 passed, ${status:-0} failed\"
exit \"${status:-0}\"
";

/// The compiler: writes an archive where it is told to, if the libraries that it is given are there.
const RATTLE: &str = "#!/bin/sh
root=$(dirname \"$0\")/../..
for last; do :; done
echo \"rattle $1\" >>\"$root/log\"
case \" $* \" in *\" --extern lists=\"*\"/crates/lists/out/rlib/lists.rlib \"*) ;; *) exit 9 ;; esac
case \" $* \" in *\" -L dependency=\"*\"/crates/lists/out/rlib \"*) ;; *) exit 9 ;; esac
[ ! -f \"$root/fail-rattle\" ] || exit 1
echo rattle >\"$last\"
";

/// The same for cargo, told apart by the package that is named last.
const CARGO: &str = "#!/bin/sh
for last; do :; done
echo \"cargo $1 $last\" >>log
[ ! -f slow ] || sleep 60
case \" $* \" in *' --offline '*) ;; *) exit 9 ;; esac
[ \"$1\" != check ] || [ -f \"$GENTROPI_LIB_DIR/libgentropi.a\" ] || exit 9
[ \"$1\" != test ] || [ -z \"${GENTROPI_LIB_DIR-}\" ] || exit 9
exit \"$(cat \"fail-$1-$last\" 2>/dev/null || echo 0)\"
";

/// What a run of the gate came to, where some of what it runs fails.
struct Gate {
    /// What was run, in order.
    log: String,
    /// The last line that was printed.
    last: String,
    status: Option<i32>,
}

fn gate(failing: &[(&str, &str)]) -> Gate {
    let failing: Vec<_> =
        failing.iter().map(|(name, status)| (format!("fail-{name}"), *status)).collect();
    run(&read(".ci/run"), &failing)
}

/// Runs a gate where these files stand.
fn run(gate: &str, files: &[(String, &str)]) -> Gate {
    let folder = ScratchFolder::new("gate");
    folder.write_script(".ci/run", gate);
    folder.write_script("staticlib", &read("staticlib"));
    folder.write("crates.txt", "lists:\ngentropi staticlib: lists\n");
    folder.write("crates/gentropi/source", "");
    folder.write("crates/lists/source", "");
    folder.link_commands(&[
        "awk", "bash", "cat", "cp", "dirname", "env", "mkdir", "mktemp", "mv", "rm", "sed", "sh",
        "sleep", "tail", "timeout",
    ]);
    folder.write_script("bin/rt", RT);
    folder.write_script("bin/cargo", CARGO);
    folder.write_script("kit/bin/rattle", RATTLE);
    files.iter().for_each(|(name, text)| folder.write(name, text));
    let mut command = folder.command(".ci/run");
    command.env("GENTROPI_LIB_DIR", "elsewhere");
    let Output { status, stdout, .. } = command.output().expect("the gate can be run");
    let said = String::from_utf8(stdout).expect("UTF-8");
    let last = said.lines().last().unwrap_or_default().to_string();
    assert_eq!(
        said.matches(" passed, ").count(),
        usize::from(last.contains(" passed, ")),
        "{said}"
    );
    Gate { log: folder.read("log"), last, status: status.code() }
}

const FIRST: &str = "cargo test repository\ncargo check chunklist\n";
const PROVED: &str = "cargo test repository\ncargo check chunklist\nrt ci\n";

/// All that a gate runs, where these calls build the archive.
fn all(calls: &str) -> String {
    format!("{PROVED}{calls}cargo test chunklist\n")
}

#[test]
fn the_last_line_is_that_of_rt_ci() {
    let Gate { log, last, status } = gate(&[]);
    assert_eq!(
        (log, last.as_str(), status),
        (all("rattle build\n"), "7 passed, 0 failed", Some(0))
    );
}

#[test]
fn the_host_fails_before_anything_is_proved() {
    for failing in ["test-repository", "check-chunklist"] {
        let Gate { log, last, status } = gate(&[(failing, "101")]);
        assert!(FIRST.starts_with(&log), "{log}");
        assert!(last.starts_with("gate: the host"), "{last}");
        assert_eq!(status, Some(1));
    }
}

#[test]
fn what_rt_ci_says_and_its_status_are_kept() {
    for status in [1, 2, 3] {
        let Gate { log, last, status: found } = gate(&[("ci", &status.to_string())]);
        assert_eq!(log, PROVED);
        assert_eq!((last, found), (format!("7 passed, {status} failed"), Some(status)));
    }
}

#[test]
fn tests_that_link_the_library_fail_the_gate_too() {
    let Gate { log, last, status } = gate(&[("test-chunklist", "101")]);
    assert_eq!((log, status), (all("rattle build\n"), Some(1)));
    assert_eq!(last, "gate: the host's tests with the library FAILED");
}

#[test]
fn a_library_that_is_not_built_fails_the_gate() {
    let Gate { log, last, status } = gate(&[("rattle", "1"), ("lib", "1")]);
    assert_eq!(log, format!("{PROVED}rattle build\nrt lib\n"));
    assert_eq!((last.as_str(), status), ("gate: the library was not built", Some(1)));
}

#[test]
fn where_the_compiler_fails_rt_builds_the_library() {
    let Gate { log, last, status } = gate(&[("rattle", "1")]);
    assert_eq!(log, all("rattle build\nrt lib\n"));
    assert_eq!((last.as_str(), status), ("7 passed, 0 failed", Some(0)));
}

#[test]
fn libraries_that_were_kept_are_left_to_rt() {
    let Gate { log, status, .. } = run(&read(".ci/run"), &[("kept".into(), "")]);
    assert_eq!((log, status), (all("rt lib\n"), Some(0)));
}

/// What `rt ci` says above its last line, where so many edits are bad.
fn told(bad: &str) -> String {
    format!("rt: ok; handles allowed: none; must-fail edits: 286 refused{bad}; every proof\n")
}

#[test]
fn bad_edits_fail_the_gate() {
    let Gate { log, last, status } = run(&read(".ci/run"), &[("ok".into(), &told(", 2 bad"))]);
    assert_eq!((log.as_str(), status), (PROVED, Some(1)));
    assert!(last.starts_with("gate: must-fail edits are BAD: rt: ok"), "{last}");
    let Gate { log, status, .. } = run(&read(".ci/run"), &[("ok".into(), &told(""))]);
    assert_eq!((log, status), (all("rattle build\n"), Some(0)));
}

#[test]
fn tests_that_take_too_long_fail_the_gate() {
    let text = read(".ci/run");
    let short = text.replace("before=600", "before=1");
    assert_ne!(text, short, "the gate has a time limit");
    let Gate { log, last, status } = run(&short, &[("slow".into(), "")]);
    assert_eq!((log.as_str(), status), ("cargo test repository\n", Some(1)));
    assert_eq!(last, "gate: the host's tests without the library FAILED");
}
