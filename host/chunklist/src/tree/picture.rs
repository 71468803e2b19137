//! Chunks as bars against a page window, for a terminal.

use super::{Shown, ShownChunk, shown::counted};

/// How many cells the window has, and how many are drawn past it at most.
const WINDOW_CELLS: u64 = 32;
const PAST_CELLS: u64 = 16;

/// How wide the column of names gets. A longer name has a line to itself.
const NAME_CELLS: usize = 40;

/// What makes a line stand out in a terminal that has colours, and what ends it.
const BOLD_RED: &str = "\x1b[1;31m";
const PLAIN: &str = "\x1b[0m";

/// The widths of the columns.
struct Widths {
    number: usize,
    label: usize,
    name: usize,
    size: usize,
    share: usize,
    past: usize,
    modules: usize,
}

/// A line for each chunk, one more below a chunk that is above its maximum, and a last one that counts
/// those above the window.
pub fn picture(shown: &Shown, window: u64, colours: bool) -> String {
    let widths = Widths::new(shown, window);
    let counted = counted(shown.chunks.len(), "chunk");
    let mut text = format!("{}: {counted} against a window of {window} bytes\n", shown.title);
    if !shown.chunks.is_empty() {
        text.push_str(&format!("\n{}\n", heading(&widths)));
    }
    for chunk in &shown.chunks {
        let line = chunk_line(shown, chunk, window, &widths);
        let stands_out = colours && chunk.size > window;
        let line = if stands_out { format!("{BOLD_RED}{line}{PLAIN}") } else { line };
        text.push_str(&format!("{line}\n{}", too_large(chunk, &widths)));
    }
    text + &format!("\n{}\n", verdict(shown, window))
}

impl Widths {
    fn new(shown: &Shown, window: u64) -> Self {
        let widest = |heading: &str, width: &dyn Fn(&ShownChunk) -> usize| {
            shown.chunks.iter().map(width).max().unwrap_or(0).max(heading.len())
        };
        Self {
            number: widest("chunk", &|chunk| chunk.number.to_string().len()),
            label: widest("group", &|chunk| chunk.label.chars().count()),
            name: widest("name", &|chunk| name_cells(chunk).unwrap_or(0)),
            size: widest("bytes", &|chunk| chunk.size.to_string().len()),
            share: widest("window", &|chunk| share(chunk.size, window).len()),
            past: widest("", &|chunk| past(chunk.size, window).len()),
            modules: widest("modules", &|chunk| chunk.modules.len().to_string().len()),
        }
    }
}

fn heading(widths: &Widths) -> String {
    let Widths { number, label, name, size, share, past, modules } = *widths;
    let (first, bar) =
        (format!("{:<number$}  {:<label$}", "chunk", "group"), WINDOW_CELLS as usize + 2);
    let rest = format!("{:<name$}  {:>size$}  {:>share$}", "name", "bytes", "window");
    format!("   {first}  {rest}  {:bar$}{:past$}  {:>modules$}  entries", "", "", "modules")
}

fn chunk_line(shown: &Shown, chunk: &ShownChunk, window: u64, widths: &Widths) -> String {
    let mark = if chunk.size > window { ">>" } else { "  " };
    let first =
        format!("{:>w$}  {:<l$}", chunk.number, chunk.label, w = widths.number, l = widths.label);
    let (size, share) = (chunk.size, share(chunk.size, window));
    let numbers = format!("{size:>s$}  {share:>p$}", s = widths.size, p = widths.share);
    let bar = format!("|{:.<cells$}|", inside(size, window), cells = WINDOW_CELLS as usize);
    let past = format!("{:<w$}", past(size, window), w = widths.past);
    let modules = format!("{:>w$}", chunk.modules.len(), w = widths.modules);
    let entries = shown.entry_names(&chunk.entries);
    let name = name(chunk, widths);
    format!("{mark} {first}  {name}  {numbers}  {bar}{past}  {modules}  {entries}")
}

/// The line below a chunk that is above its maximum, from the column of names on.
fn too_large(chunk: &ShownChunk, widths: &Widths) -> String {
    let Widths { number, label, .. } = *widths;
    let line = |why: &String| format!("   {:number$}  {:label$}  {why}\n", "", "");
    chunk.too_large.as_ref().map_or(String::new(), line)
}

/// How many cells a name takes in its column, unless it has a line to itself.
fn name_cells(chunk: &ShownChunk) -> Option<usize> {
    let cells = chunk.name.chars().count();
    (cells <= NAME_CELLS).then_some(cells)
}

/// The name, filled up to where the next column begins, which may be on the next line.
fn name(chunk: &ShownChunk, widths: &Widths) -> String {
    let Widths { number, label, name, .. } = *widths;
    match name_cells(chunk) {
        Some(_) => format!("{:<name$}", chunk.name),
        None => format!("{}\n   {:number$}  {:label$}  {:name$}", chunk.name, "", "", ""),
    }
}

/// The part of the window that a size takes, in hundredths, rounded up so that 100% is all of it.
pub fn share(size: u64, window: u64) -> String {
    format!("{}%", (u128::from(size) * 100).div_ceil(u128::from(window)))
}

/// The cells inside the window.
fn inside(size: u64, window: u64) -> String {
    cells(size.min(window), window, "#")
}

/// The cells past the window; `>` if there are more than are drawn.
fn past(size: u64, window: u64) -> String {
    let cells = cells(size.saturating_sub(window), window, "!");
    if cells.len() as u64 > PAST_CELLS {
        return format!("{}>", "!".repeat(PAST_CELLS as usize - 1));
    }
    cells
}

/// As many cells as a size takes, the last one perhaps not full.
fn cells(size: u64, window: u64, cell: &str) -> String {
    let cells = (u128::from(size) * u128::from(WINDOW_CELLS)).div_ceil(u128::from(window));
    // A size far past the window needs no more cells than show that it is.
    cell.repeat(usize::try_from(cells.min(1 + u128::from(WINDOW_CELLS))).unwrap_or(0))
}

/// Which chunks are above the window.
fn verdict(shown: &Shown, window: u64) -> String {
    let above = shown.above(window);
    if above.is_empty() {
        return "No chunk is above the window.".into();
    }
    let one =
        |chunk: &&ShownChunk| format!("chunk {} by {} bytes", chunk.number, chunk.size - window);
    let each: Vec<String> = above.iter().map(one).collect();
    let count = format!("{} of {}", above.len(), counted(shown.chunks.len(), "chunk"));
    format!(">> ABOVE the window: {count}, {}", each.join(", "))
}

#[cfg(test)]
mod tests {
    use super::{inside, past, share};

    #[test]
    fn a_full_window_has_all_cells_and_none_past_it() {
        assert_eq!((inside(64, 64).len(), past(64, 64).len()), (32, 0));
        assert_eq!((inside(63, 64).len(), past(63, 64).len()), (32, 0));
        assert_eq!((inside(62, 64).len(), inside(1, 64).len(), inside(0, 64).len()), (31, 1, 0));
    }

    #[test]
    fn one_byte_too_many_shows() {
        assert_eq!((inside(65, 64).len(), past(65, 64).as_str()), (32, "!"));
        assert_eq!(past(96, 64).len(), 16);
        assert_eq!(past(98, 64), "!!!!!!!!!!!!!!!>");
        assert_eq!(past(u64::MAX, 1), "!!!!!!!!!!!!!!!>");
    }

    #[test]
    fn shares_are_rounded_up() {
        let shares = [0, 1, 64, 65].map(|size| share(size, 64));
        assert_eq!(shares, ["0%", "2%", "100%", "102%"]);
    }
}
