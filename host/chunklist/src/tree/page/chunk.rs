//! One chunk of a page: its bar, its modules, and why it is what it is.

use super::escape::{bytes, escaped};
use crate::tree::{
    Shown, ShownChunk, ShownModule, TreeBuild,
    options_in_force::{InForce, options_in_force},
    picture::share,
    shown::counted,
    why::Why,
};

/// The mark of what the library doesn't answer for.
pub const NOT_PROVED: &str = "<span class=\"unproved\">host's reading, not proved</span>";

/// How the name of an entries-aware chunk goes on.
const AWARE_NAME: &str = ", then its entries; above 100 bytes it is cut and ends in a hash";

/// What a page is made from.
pub struct Page<'a> {
    pub build: &'a TreeBuild,
    pub shown: &'a Shown,
    pub why: &'a Why<'a>,
    pub window: Option<u64>,
}

impl Page<'_> {
    /// The size that has the whole width: the window or the largest chunk.
    fn scale(&self) -> u64 {
        let largest = self.shown.chunks.iter().map(|chunk| chunk.size).max();
        largest.into_iter().chain(self.window).max().unwrap_or(1).max(1)
    }

    /// Where the window ends, in hundredths of the width.
    pub fn window_share(&self) -> f64 {
        self.window.map_or(100.0, |window| percent(window, self.scale()))
    }

    fn is_above(&self, chunk: &ShownChunk) -> bool {
        self.window.is_some_and(|window| chunk.size > window)
    }

    /// A chunk.
    pub fn chunk(&self, chunk: &ShownChunk) -> String {
        let class = if self.is_above(chunk) { "chunk above" } else { "chunk" };
        let entries: Vec<String> = chunk.entries.iter().map(ToString::to_string).collect();
        let mut html = format!(
            "<article class=\"{class}\" id=\"chunk-{}\" data-group=\"{}\" data-name=\"{}\" \
             data-entries=\"{}\" data-size=\"{}\">\n",
            chunk.number,
            chunk.group,
            escaped(&chunk.group_name),
            entries.join(" "),
            chunk.size
        );
        html.push_str(&self.heading(chunk));
        html.push_str(&too_large(chunk));
        html.push_str(&self.bar(chunk));
        html.push_str(&self.modules(chunk));
        html.push_str(&self.why(chunk));
        html + "</article>\n"
    }

    fn heading(&self, chunk: &ShownChunk) -> String {
        let mut facts = vec![format!("{} bytes", bytes(chunk.size))];
        if let Some(window) = self.window {
            facts.push(format!("{} of the window", share(chunk.size, window)));
        }
        facts.push(counted(chunk.modules.len(), "module"));
        facts.push(format!("entries {}", escaped(&self.shown.entry_names(&chunk.entries))));
        let above = self.window.filter(|window| chunk.size > *window).map(|window| {
            format!(
                " <strong class=\"flag\">ABOVE by {} bytes</strong>",
                bytes(chunk.size - window)
            )
        });
        format!(
            "<h2>{} <span class=\"name\">{}</span> <span class=\"group\">group {}</span>{}</h2>\n\
             <p class=\"facts\">{}</p>\n",
            chunk.number,
            escaped(&chunk.name),
            escaped(&chunk.label),
            above.unwrap_or_default(),
            facts.join(" · ")
        )
    }

    /// The modules side by side, the largest first, against the window.
    fn bar(&self, chunk: &ShownChunk) -> String {
        let mut modules: Vec<&ShownModule> = chunk.modules.iter().collect();
        modules.sort_by(|a, b| b.size.cmp(&a.size).then_with(|| a.id.cmp(&b.id)));
        let hue = chunk.group * 67 % 360;
        let module = |module: &&ShownModule| {
            let (id, size) = (escaped(&module.id), module.size);
            let short = escaped(module.id.rsplit('/').next().unwrap_or_default());
            format!(
                "<span style=\"flex-grow:{size}\" title=\"{id}, {} bytes\">{short}</span>",
                bytes(size)
            )
        };
        let modules: String = modules.iter().map(module).collect();
        format!(
            "<div class=\"track\" aria-hidden=\"true\"><div class=\"bar\" \
             style=\"width:{}%;--hue:{hue}\">{modules}</div></div>\n",
            percent(chunk.size, self.scale())
        )
    }

    /// The modules as a table, in execution order.
    fn modules(&self, chunk: &ShownChunk) -> String {
        let row = |module: &ShownModule| {
            format!(
                "<tr data-size=\"{}\"><td>{}</td><td class=\"number\">{}</td><td>{}</td><td>{}</td></tr>\n",
                module.size,
                escaped(&module.id),
                bytes(module.size),
                escaped(&self.shown.entry_names(&module.entries)),
                self.why.of_module(chunk, module)
            )
        };
        let rows: String = chunk.modules.iter().map(row).collect();
        format!(
            "<details><summary>modules in execution order</summary>\n<table class=\"modules\">\n\
             <tr><th>id</th><th class=\"number\">bytes</th><th>entries</th>\
             <th>here because it is {NOT_PROVED}</th></tr>\n{rows}</table></details>\n"
        )
    }

    /// Why a chunk is what it is; of one above the window it shows at once.
    fn why(&self, chunk: &ShownChunk) -> String {
        let group = &self.build.tree.groups[chunk.group];
        let tests: Vec<String> = group
            .tests
            .iter()
            .map(|test| format!("<code>{}</code>", escaped(&test.text)))
            .collect();
        let tests = if tests.is_empty() { "every module".into() } else { tests.join(" or ") };
        let options: String =
            options_in_force(&self.build.tree, group).iter().map(option).collect();
        format!(
            "<details{}><summary>why</summary>\n\
             <p>Group {} (line {}) matches {tests}; the name is <code>{}</code>{}.</p>\n\
             <table class=\"options\">\n<tr><th>option in force</th><th>value</th><th>from</th></tr>\n\
             {options}</table>\n<div class=\"reading\"><p>{NOT_PROVED}</p>\n{}{}</div></details>\n",
            if self.is_above(chunk) { " open" } else { "" },
            escaped(&group.label),
            group.line,
            escaped(&group.name.text),
            if group.entries_aware == Some(true) { AWARE_NAME } else { "" },
            items(&self.why.of_chunk(chunk)),
            before(&self.why.before_chunk(chunk))
        )
    }

    /// The modules that are in no chunk, and what came to nothing after the last one.
    pub fn left(&self) -> String {
        let row = |module: &ShownModule| {
            let (id, size) = (escaped(&module.id), bytes(module.size));
            let why = escaped(&self.why.of_left(module));
            format!("<tr><td>{id}</td><td class=\"number\">{size}</td><td>{why}</td></tr>\n")
        };
        let rows: String = self.shown.left.iter().map(row).collect();
        let count = counted(self.shown.left.len(), "module");
        let after = items(&self.why.after_last());
        let after =
            if after.is_empty() { after } else { format!("<p>After the last chunk:</p>\n{after}") };
        format!(
            "<section class=\"left\" aria-label=\"In no chunk\">\n<h2>in no chunk: {count}</h2>\n\
             <table class=\"modules\">\n<tr><th>id</th><th class=\"number\">bytes</th>\
             <th>because {NOT_PROVED}</th></tr>\n{rows}</table>\n\
             <div class=\"reading\"><p>{NOT_PROVED}</p>\n{after}</div>\n</section>\n"
        )
    }
}

/// Why a chunk is above its maximum. It is the library's answer, so it stands apart from what isn't proved.
fn too_large(chunk: &ShownChunk) -> String {
    let line = |why: &String| format!("<p class=\"too-large\">{}</p>\n", escaped(why));
    chunk.too_large.as_ref().map_or(String::new(), line)
}

/// An option as a row.
fn option(option: &InForce) -> String {
    let InForce { option, value, from } = option;
    format!("<tr><td>{option}</td><td>{}</td><td>{from}</td></tr>\n", escaped(value))
}

/// What came to nothing since the chunk before.
fn before(lines: &[String]) -> String {
    if lines.is_empty() {
        return "<p>Nothing was dropped or emptied since the chunk before.</p>\n".into();
    }
    format!("<p>Since the chunk before:</p>\n{}", items(lines))
}

/// Lines as a list.
fn items(lines: &[String]) -> String {
    if lines.is_empty() {
        return String::new();
    }
    let items: String = lines.iter().map(|line| format!("<li>{}</li>\n", escaped(line))).collect();
    format!("<ul>\n{items}</ul>\n")
}

/// A part of a whole in hundredths.
fn percent(part: u64, whole: u64) -> f64 {
    (part as f64 / whole as f64 * 1e4).round() / 100.0
}
