//! The numbers in the C header are those of the binding.

use std::{fs, path::Path};

use gentropi::{
    Mark, Refusal, flag, limits,
    needs::{self, Call},
    raw::{self, CutPlaces, CutTables},
};

fn header() -> String {
    let path = Path::new(env!("CARGO_MANIFEST_DIR")).join("include/gentropi.h");
    fs::read_to_string(path).expect("the header can be read")
}

/// The number that a `#define` gives a name.
fn defined(header: &str, name: &str) -> u64 {
    let before = format!("#define GENTROPI_{name} ((size_t)");
    let (_, rest) = header.split_once(&before).unwrap_or_else(|| panic!("no {name} is defined"));
    rest.split(')').next().and_then(|digits| digits.parse().ok()).expect("a number")
}

/// The number that an enumeration gives a name.
fn enumerated(header: &str, name: &str) -> u64 {
    let before = format!("    GENTROPI_{name} = ");
    let (_, rest) = header.split_once(&before).unwrap_or_else(|| panic!("{name} has no number"));
    let digits = rest.split(|c: char| !c.is_ascii_digit()).next();
    digits.and_then(|digits| digits.parse().ok()).expect("a number")
}

#[test]
fn limits_are_the_same() {
    let header = header();
    for (name, limit) in [
        ("MODULES", limits::MODULES),
        ("GROUPS", limits::GROUPS),
        ("ENTRIES", limits::ENTRIES),
        ("NAMES", limits::NAMES),
        ("RECORDS", limits::RECORDS),
        ("ID_BYTES", limits::ID_BYTES),
        ("CHUNK_NAME_BYTES", limits::CHUNK_NAME_BYTES),
        ("HASH_BYTES", limits::HASH_BYTES),
        ("BITS_WORDS", needs::bits_words(1)),
    ] {
        assert_eq!(defined(&header, name), limit as u64, "{name}");
    }
    assert!(header.contains("#define GENTROPI_TOTAL_SIZE (UINT64_C(1) << 53)"));
    assert_eq!(limits::TOTAL_SIZE, 1 << 53);
}

#[test]
fn stacks_are_the_same() {
    let header = header();
    for call in Call::ALL {
        let name = format!("{call:?}_STACK_BYTES").to_uppercase();
        assert_eq!(defined(&header, &name), needs::stack_bytes(call) as u64, "{call:?}");
    }
}

#[test]
fn refusals_are_the_same() {
    let (header, names) = (header(), include_str!("../src/refusal.rs"));
    let listed =
        names.split("    pub const ").skip(1).filter_map(|piece| piece.split_once(": Self"));
    let mut count = 0;
    for ((name, _), refusal) in listed.zip(Refusal::ALL) {
        assert_eq!(enumerated(&header, name), u64::from(refusal.number()), "{name}");
        count += 1;
    }
    assert_eq!((count, enumerated(&header, "ACCEPTED")), (16, 0));
}

#[test]
fn marks_are_the_same() {
    let header = header();
    for mark in Mark::ALL {
        let name = match mark {
            Mark::Within => "MARK_WITHIN",
            Mark::OneModule => "MARK_ONE_MODULE",
            Mark::NoCutAllowed => "MARK_NO_CUT_ALLOWED",
        };
        assert_eq!(enumerated(&header, name), u64::from(mark.number()), "{name}");
    }
    assert!(header.contains("\ntypedef uint8_t gentropi_mark;\n"));
}

/// What a call of Cut writes for the first `n` of two modules of 5 bytes each.
fn why_none(n: usize, minimum: f64) -> u64 {
    let (offsets, sizes) = (&[0, 1, 2][..=n], &[5, 5][..n]);
    let tables = CutTables { n, bytes: b"ab", offsets, sizes, minimum, maximum: 9.0 };
    let mut places = CutPlaces { why_none: 9, ..CutPlaces::default() };
    assert_eq!(raw::cut(&tables, &mut places), 0);
    places.why_none.into()
}

#[test]
fn kinds_of_none_are_the_same() {
    let header = header();
    assert_eq!(why_none(2, 5.0), enumerated(&header, "CUT_FOUND"));
    assert_eq!(why_none(2, 6.0), enumerated(&header, "CUT_NONE_ALLOWED"));
    assert_eq!(why_none(1, 5.0), enumerated(&header, "CUT_FEWER_THAN_TWO"));
    assert_eq!(why_none(0, 5.0), enumerated(&header, "CUT_FEWER_THAN_TWO"));
}

#[test]
fn flags_are_the_same() {
    let header = header();
    let named =
        [("NORMAL", flag::NORMAL), ("INCLUDED", flag::INCLUDED), ("ASSIGNED", flag::ASSIGNED)];
    for (name, flag) in named {
        assert_eq!(enumerated(&header, name), u64::from(flag), "{name}");
    }
}
