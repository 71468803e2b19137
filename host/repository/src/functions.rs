//! The exported functions as the sources, the C header and the Rust declarations have them.

/// A function with its parameters as they are written, in their order.
#[derive(Debug, Clone, PartialEq, Eq)]
pub struct Function {
    /// Its name.
    pub name: String,
    /// Each parameter, with single blanks.
    pub parameters: Vec<String>,
}

/// The functions of a text. Before the name of each stand the words `before`, after the parameters
/// the words `after`.
///
/// ```
/// let found = repository::declared("fn one(a: u8, b: &[u8]) -> u32", "fn ", ") -> u32");
/// assert_eq!(found[0].name, "one");
/// assert_eq!(found[0].parameters, ["a: u8", "b: &[u8]"]);
/// ```
pub fn declared(text: &str, before: &str, after: &str) -> Vec<Function> {
    let function = |piece: &str| {
        let (name, rest) = piece.split_once('(')?;
        let (parameters, _) = rest.split_once(after)?;
        let parameters = parameters.split(',').map(one_line).filter(|one| !one.is_empty());
        Some(Function { name: one_line(name), parameters: parameters.collect() })
    };
    text.split(before).skip(1).filter_map(function).collect()
}

/// Words with single blanks between them.
fn one_line(text: &str) -> String {
    text.split_whitespace().collect::<Vec<_>>().join(" ")
}

/// How an exported function is declared in C: a slice is a pointer and then its length.
///
/// ```
/// let found = repository::declared("fn one(a: bool, b: &mut [u32]) -> u32", "fn ", ") -> u32");
/// let expected = ["bool a", "uint32_t *b", "size_t b_len"];
/// assert_eq!(repository::in_c(&found[0]).parameters, expected);
/// ```
pub fn in_c(exported: &Function) -> Function {
    translated(exported, |name, parts| {
        let item = c_type(parts.item);
        match parts.form {
            Form::Value => vec![format!("{item} {name}")],
            Form::Place => vec![format!("{item} *{name}")],
            Form::Read => vec![format!("const {item} *{name}"), format!("size_t {name}_len")],
            Form::Area => vec![format!("{item} *{name}"), format!("size_t {name}_len")],
        }
    })
}

/// How an exported function is declared in Rust, as foreign.
///
/// ```
/// let found = repository::declared("fn one(a: &[u8], b: &mut f64) -> u32", "fn ", ") -> u32");
/// let expected = ["a: *const u8", "a_len: usize", "b: *mut f64"];
/// assert_eq!(repository::in_rust(&found[0]).parameters, expected);
/// ```
pub fn in_rust(exported: &Function) -> Function {
    translated(exported, |name, parts| {
        let item = parts.item;
        match parts.form {
            Form::Value => vec![format!("{name}: {item}")],
            Form::Place => vec![format!("{name}: *mut {item}")],
            Form::Read => vec![format!("{name}: *const {item}"), format!("{name}_len: usize")],
            Form::Area => vec![format!("{name}: *mut {item}"), format!("{name}_len: usize")],
        }
    })
}

/// How a parameter crosses the boundary.
enum Form {
    Value,
    /// One item that is written.
    Place,
    /// A slice that is read.
    Read,
    /// A slice that is written.
    Area,
}

/// The type of a parameter.
struct Parts<'a> {
    form: Form,
    item: &'a str,
}

fn translated(exported: &Function, translate: impl Fn(&str, Parts<'_>) -> Vec<String>) -> Function {
    let each = exported.parameters.iter().flat_map(|parameter| {
        let (name, kind) = parameter.split_once(": ").expect("a parameter has a type");
        translate(name, parts(kind))
    });
    Function { name: exported.name.clone(), parameters: each.collect() }
}

/// Takes the type of an exported function's parameter apart.
fn parts(kind: &str) -> Parts<'_> {
    let slice = |kind: &str| kind.starts_with('[');
    let (form, item) = match (kind.strip_prefix("&mut "), kind.strip_prefix('&')) {
        (Some(item), _) if slice(item) => (Form::Area, item),
        (Some(item), _) => (Form::Place, item),
        (None, Some(item)) => (Form::Read, item),
        (None, None) => (Form::Value, kind),
    };
    Parts { form, item: item.trim_matches(['[', ']']) }
}

/// The C type of an item.
fn c_type(item: &str) -> &'static str {
    match item {
        "bool" => "bool",
        "u8" => "uint8_t",
        "u32" => "uint32_t",
        "u64" => "uint64_t",
        "usize" => "size_t",
        "f64" => "double",
        other => panic!("a type that has no name in C yet: {other}"),
    }
}
