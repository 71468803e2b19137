//! The stack that a call takes at most, added up from the frames of the archive's functions, is within
//! what the binding says; and the archive keeps nothing between calls.

use std::{
    collections::{BTreeMap, BTreeSet},
    process::Command,
};

use gentropi::needs::{self, Call};

/// What the C library's functions may take, of which the archive calls two that copy and fill memory.
const LIBRARY: usize = 1_024;

/// The one function that calls itself, and how deep: with each turn the ids have six bytes more in
/// common, of at most 1,024, and the last turns find nothing left of them.
const RECURSIVE: (&str, usize) = ("idsort::rounds::sort_shared", 1_024 / 6 + 3);

/// A function of the archive.
#[derive(Debug, Default)]
struct Frame {
    /// The bytes that it takes itself, its return address included.
    bytes: usize,
    /// The functions of the archive that it calls.
    calls: BTreeSet<String>,
    /// Whether it calls itself, which needs no relocation.
    recursive: bool,
}

/// What a tool says of the archive.
fn told(tool: &str, words: &[&str]) -> String {
    let output = Command::new(tool).args(words).arg(env!("GENTROPI_ARCHIVE")).output();
    let output = output.unwrap_or_else(|error| panic!("{tool}: {error}"));
    assert!(output.status.success(), "{tool}: {}", String::from_utf8_lossy(&output.stderr));
    String::from_utf8(output.stdout).expect("UTF-8")
}

/// The number after `sub $0x` in an instruction that takes it from this register.
fn taken_from(register: &str, instruction: &str) -> Option<usize> {
    let (digits, rest) =
        instruction.split_once("sub ")?.1.trim().strip_prefix("$0x")?.split_once(',')?;
    (rest.trim() == register).then(|| usize::from_str_radix(digits, 16).ok()).flatten()
}

/// Adds an instruction to its function. A large frame is taken page by page in a loop, down to an
/// address that is reckoned first: `in_loop` says that the page of that loop is still to come.
fn add(frame: &mut Frame, name: &str, line: &str, in_loop: &mut bool) {
    if line.contains("\tcall ") && line.ends_with(&format!("<{name}>")) {
        frame.recursive = true;
    } else if line.contains("\tpush ") {
        frame.bytes += 8;
    } else if let Some(bytes) = taken_from("%r11", line) {
        frame.bytes += bytes;
        *in_loop = true;
    } else if let Some(bytes) = taken_from("%rsp", line) {
        let is_page = std::mem::replace(in_loop, *in_loop && bytes != 4_096) && bytes == 4_096;
        frame.bytes += if is_page { 0 } else { bytes };
    } else if let Some((_, callee)) =
        line.split_once("\t.text.").filter(|_| line.contains("R_X86_64_P"))
    {
        frame.calls.insert(callee.trim_end_matches("-0x4").to_string());
    } else {
        // Nothing else may lower the stack pointer.
        let changes =
            line.ends_with(",%rsp") && !line.contains("\tadd ") && !line.contains("\tcmp ");
        assert!(!changes, "the stack pointer is changed in a way that is not known here: {line}");
    }
}

/// The functions of the archive by name.
fn frames() -> BTreeMap<String, Frame> {
    let mut frames: BTreeMap<String, Frame> = BTreeMap::new();
    let (mut name, mut in_loop) = (String::new(), false);
    for line in told("objdump", &["-d", "-r", "--no-show-raw-insn"]).lines() {
        if let Some(label) = line.strip_suffix(">:").and_then(|line| line.split_once(" <")) {
            (name, in_loop) = (label.1.to_string(), false);
            frames.insert(name.clone(), Frame { bytes: 8, ..Frame::default() });
        } else if let Some(frame) = frames.get_mut(&name) {
            add(frame, &name, line, &mut in_loop);
        }
    }
    frames
}

/// How deep a function goes; one that calls itself through others has no depth.
fn depth(frames: &BTreeMap<String, Frame>, name: &str, above: &[&str]) -> usize {
    assert!(!above.contains(&name), "{name} calls itself");
    let frame = frames.get(name).unwrap_or_else(|| panic!("{name} is not in the archive"));
    let above: Vec<&str> = above.iter().copied().chain([name]).collect();
    let below = frame.calls.iter().map(|callee| depth(frames, callee, &above)).max();
    frame.bytes * times(name, frame) + below.unwrap_or(0)
}

/// How often a function's frame can stand on the stack at once.
fn times(name: &str, frame: &Frame) -> usize {
    assert_eq!(frame.recursive, name == RECURSIVE.0, "{name} calls itself, or doesn't any more");
    if frame.recursive { RECURSIVE.1 } else { 1 }
}

#[test]
fn no_call_takes_more_stack_than_is_said() {
    let frames = frames();
    for call in Call::ALL {
        let name = format!("gentropi_{call:?}").to_lowercase();
        let bytes = depth(&frames, &name, &[]) + LIBRARY;
        println!("{name}: {bytes} of {} bytes", needs::stack_bytes(call));
        assert!(bytes <= needs::stack_bytes(call), "{name} takes {bytes} bytes");
    }
    // Its local tables alone have more than three hundred kilobytes, which a wrong reading would miss.
    assert!(depth(&frames, "gentropi_chunks", &[]) > 300 * 1_024);
}

#[test]
fn the_archive_keeps_nothing_and_needs_only_two_functions() {
    let symbols = told("nm", &[]);
    let kinds = symbols.lines().filter_map(|line| line.get(17..18).zip(line.get(19..)));
    let (mut exported, mut needed) = (BTreeSet::new(), BTreeSet::new());
    for (kind, name) in kinds {
        match kind {
            "T" => drop(exported.insert(name)),
            "U" => drop(needed.insert(name)),
            // Code and constants of its own; data that could change would be `d` or `b`.
            other => assert!(["t", "r"].contains(&other), "{other} {name}"),
        }
    }
    assert_eq!(exported.len(), Call::ALL.len(), "{exported:?}");
    assert_eq!(needed, BTreeSet::from(["memcpy", "memset"]));
}
