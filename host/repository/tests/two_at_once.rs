//! `./chunklist` with stand-ins for `rt` and `cargo`, which fail when they run beside themselves: of
//! two callers one builds, and the other waits and says so.

use std::{
    fs,
    process::{Child, Command, Output, Stdio},
};

use repository::{ScratchFolder, command, read};

/// Takes two seconds to prove, and can't be run twice at once.
const RT: &str = "#!/bin/sh
mkdir running || { echo 'rt: gentropi NOT PROVED'; exit 1; }
echo \"rt $*\" >>../../log
sleep 2
mkdir -p out
: >out/libgentropi.a
rmdir running
";

/// Makes a program that answers one word.
const CARGO: &str = "#!/bin/sh
root=$(dirname \"$0\")/..
mkdir \"$root/running\" || exit 1
echo \"cargo $1\" >>\"$root/log\"
sleep 1
mkdir -p \"$root/host/target/release\"
printf '#!/bin/sh\\necho answered\\n' >\"$root/host/target/release/chunklist\"
chmod +x \"$root/host/target/release/chunklist\"
rmdir \"$root/running\"
";

const COMMANDS: [&str; 15] = [
    "cat", "chmod", "cp", "dirname", "find", "grep", "mkdir", "mv", "readlink", "rm", "rmdir",
    "sh", "sleep", "tee", "touch",
];

/// A repository in small, with `flock` where the system has it.
fn with_flock() -> ScratchFolder {
    let folder = without_flock();
    if command("flock").is_some() {
        folder.link_commands(&["flock"]);
    }
    folder
}

/// A repository in small.
fn without_flock() -> ScratchFolder {
    let folder = ScratchFolder::new("chunklist");
    for script in ["chunklist", "staticlib"] {
        folder.write_script(script, &read(script));
    }
    for source in ["crates.txt", "crates/gentropi/source", "host/Cargo.toml"] {
        folder.write(source, "");
    }
    for package in ["text", "reading", "gentropi", "chunklist"] {
        folder.write(&format!("host/{package}/source"), "");
    }
    folder.link_commands(&COMMANDS);
    folder.write_script("bin/rt", RT);
    folder.write_script("bin/cargo", CARGO);
    folder
}

fn started(folder: &ScratchFolder) -> Child {
    let mut command = folder.command("chunklist");
    command.stdin(Stdio::null()).stdout(Stdio::piped()).stderr(Stdio::piped());
    command.spawn().expect("the script can be run")
}

/// What a call came to: its answers, its messages and whether it succeeded.
fn ended(call: Child) -> (String, String, bool) {
    let Output { status, stdout, stderr } = call.wait_with_output().expect("the script ends");
    let text = |bytes| String::from_utf8(bytes).expect("UTF-8");
    (text(stdout), text(stderr), status.success())
}

const WAITING: &str = "chunklist: another ./chunklist is building; waiting for it\n";

/// Two calls at once: each answers, each thing is built once, and one call says that it waits.
fn two_calls(folder: &ScratchFolder) {
    let calls = [started(folder), started(folder)].map(ended);
    for (answers, messages, succeeded) in &calls {
        assert!(*succeeded && answers == "answered\n", "{answers}{messages}");
        assert!(!messages.contains("NOT PROVED"), "{messages}");
    }
    assert_eq!(folder.read("log"), "rt lib\ncargo build\n");
    let waiting = calls.iter().filter(|(_, messages, _)| messages == WAITING).count();
    assert_eq!(waiting, 1, "{calls:?}");
}

#[test]
fn two_calls_with_flock() {
    two_calls(&with_flock());
}

#[test]
fn two_calls_without_flock() {
    let folder = without_flock();
    two_calls(&folder);
    assert!(!folder.path().join("host/target/chunklist.lock.d").exists());
}

#[test]
fn what_is_built_is_not_built_again() {
    let folder = with_flock();
    two_calls(&folder);
    let (answers, messages, _) = ended(started(&folder));
    assert_eq!((answers.as_str(), messages.as_str()), ("answered\n", ""));
    assert_eq!(folder.read("log").lines().count(), 2);
}

/// A library that isn't proved is told by both, one after the other.
fn both_fail(folder: &ScratchFolder) {
    folder.write_script("bin/rt", "#!/bin/sh\necho rt >>../../log\nsleep 1\nexit 1\n");
    for (answers, messages, succeeded) in [started(folder), started(folder)].map(ended) {
        assert!(!succeeded && answers.is_empty(), "{answers}");
        assert!(messages.contains("the library was not proved"), "{messages}");
    }
    assert_eq!(folder.read("log"), "rt\nrt\n");
}

#[test]
fn a_failed_build_frees_the_lock() {
    both_fail(&with_flock());
    both_fail(&without_flock());
}

#[test]
fn a_folder_whose_maker_is_gone_is_named() {
    let folder = without_flock();
    let mut gone = Command::new("true").spawn().expect("a process");
    let number = gone.id();
    gone.wait().expect("it ends");
    folder.write("host/target/chunklist.lock.d/pid", &format!("{number}\n"));
    let (_, messages, succeeded) = ended(started(&folder));
    assert!(!succeeded);
    assert!(messages.contains(&format!("process {number} was building and is gone")), "{messages}");
}

#[test]
fn a_changed_source_is_built_again() {
    let folder = with_flock();
    two_calls(&folder);
    fs::remove_file(folder.path().join("log")).expect("the log is there");
    folder.write("crates/gentropi/source", "changed");
    two_calls(&folder);
}

#[test]
fn what_rt_made_is_no_source() {
    let folder = with_flock();
    two_calls(&folder);
    folder.write("crates/gentropi/out/made", "");
    let (_, messages, _) = ended(started(&folder));
    assert_eq!(messages, "");
    fs::remove_file(folder.path().join("log")).expect("the log is there");
    folder.write("crates/gentropi/proofs/out/source", "a module may have that name");
    two_calls(&folder);
}

#[test]
fn a_closed_output_is_an_error() {
    let folder = with_flock();
    let mut shell = folder.command("bin/sh");
    shell.args(["-c", "exec ./chunklist >&-"]);
    let Output { status, stderr, .. } = shell.output().expect("the shell can be run");
    let message = "chunklist: the answers can't be written: standard output is closed\n";
    assert_eq!((status.code(), String::from_utf8_lossy(&stderr).as_ref()), (Some(1), message));
}
