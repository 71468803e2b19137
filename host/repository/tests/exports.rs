//! The C header and the Rust declarations have every exported function, with the same parameters in
//! the same order, and no other.

use repository::{Function, declared, files, in_c, in_rust, read};

/// The exported functions of the library, by name.
fn exported() -> Vec<Function> {
    let sources = files("crates/gentropi/src", ".rt");
    let functions = sources
        .iter()
        .flat_map(|source| declared(&read(source), "pub extern \"C\" fn ", ") -> u32"));
    by_name(functions.collect())
}

fn by_name(mut functions: Vec<Function>) -> Vec<Function> {
    functions.sort_by(|one, other| one.name.cmp(&other.name));
    functions
}

/// A C text without its comments.
fn without_comments(text: &str) -> String {
    let mut pieces = text.split("/*");
    let first = pieces.next().unwrap_or_default().to_string();
    pieces.fold(first, |code, piece| code + piece.split_once("*/").map_or("", |(_, rest)| rest))
}

/// A C text with the types that its own names of types stand for: `typedef TYPE NAME;`.
fn without_typedefs(text: &str) -> String {
    let named = text.lines().filter_map(|line| line.strip_prefix("typedef ")?.strip_suffix(';'));
    let named = named.filter_map(|named| named.split_once(' '));
    named.fold(text.to_string(), |code, (kind, name)| {
        code.replace(&format!("{name} *"), &format!("{kind} *"))
    })
}

#[test]
fn every_export_is_found() {
    let marked: usize = files("crates/gentropi/src", ".rt")
        .iter()
        .map(|source| read(source).matches("#[unsafe(no_mangle)]").count())
        .sum();
    assert_eq!(exported().len(), marked);
    assert!(marked >= 7, "{marked} functions are exported");
}

#[test]
fn the_header_declares_the_exports() {
    let header = without_comments(&read("host/gentropi/include/gentropi.h"));
    let found = declared(&without_typedefs(&header), "\nuint32_t ", ");");
    assert_eq!(by_name(found), exported().iter().map(in_c).collect::<Vec<_>>());
}

#[test]
fn the_binding_declares_the_exports() {
    let found = declared(&read("host/gentropi/src/sys.rs"), "    pub fn ", ") -> u32;");
    assert_eq!(by_name(found), exported().iter().map(in_rust).collect::<Vec<_>>());
}

#[test]
fn the_page_for_hosts_names_the_exports() {
    let page = read("docs/HOSTS.md");
    for function in exported() {
        assert!(page.contains(&format!("`{}`", function.name)), "{}", function.name);
    }
}

#[test]
fn a_name_of_a_type_counts_as_the_type() {
    let header = "typedef uint8_t mark;\nuint32_t one(mark *a, size_t a_len);";
    let function = &declared("fn one(a: &mut [u8]) -> u32", "fn ", ") -> u32")[0];
    assert_eq!(declared(&without_typedefs(header), "\nuint32_t ", ");"), [in_c(function)]);
    let other = header.replace("uint8_t", "uint32_t");
    assert_ne!(declared(&without_typedefs(&other), "\nuint32_t ", ");"), [in_c(function)]);
}

#[test]
fn a_parameter_in_another_place_is_noticed() {
    let text = "fn one(a: u8, b: &[u8]) -> u32";
    let function = &declared(text, "fn ", ") -> u32")[0];
    let header = "\nuint32_t one(const uint8_t *b, size_t b_len, uint8_t a);";
    assert_ne!(declared(header, "\nuint32_t ", ");"), [in_c(function)]);
    let header = "\nuint32_t one(uint8_t a, const uint8_t *b, size_t b_len);";
    assert_eq!(declared(header, "\nuint32_t ", ");"), [in_c(function)]);
}
