//! The head of a page: what the list comes to, the filters, and whether the host's reading agrees.

use std::collections::BTreeSet;

use super::{
    chunk::Page,
    escape::{bytes, escaped},
};
use crate::tree::{HostReading, why};

/// All that stands above the chunks.
pub fn head(page: &Page<'_>, reading: &HostReading) -> String {
    let verdict = escaped(&why::verdict(reading, page.shown));
    let kind = if reading.agrees { "agrees" } else { "differs" };
    format!(
        "<header>\n<h1>{}: chunks</h1>\n{}{}{}<p class=\"{kind}\" role=\"note\" id=\"reading\">{verdict} \
         {}</p>\n</header>\n",
        escaped(&page.shown.title),
        totals(page),
        filters(page),
        legend(page),
        super::chunk::NOT_PROVED
    )
}

/// What is shown at present; the script counts it from the modules.
fn totals(page: &Page<'_>) -> String {
    let (size, modules) = page.shown.totals();
    let chunks = page.shown.chunks.len();
    let total = |id: &str, what: &str, value: String| {
        format!("<div><dt>{what}</dt><dd id=\"{id}\">{value}</dd></div>\n")
    };
    let mut html = String::from("<dl class=\"totals\" aria-live=\"polite\">\n");
    html.push_str(&total("shown-chunks", "chunks", chunks.to_string()));
    html.push_str(&total("shown-modules", "modules", modules.to_string()));
    html.push_str(&total("shown-bytes", "bytes", bytes(size)));
    if let Some(window) = page.window {
        let above = page.shown.above(window).len();
        html.push_str(&total("shown-above", "above the window", above.to_string()));
        html.push_str(&total("window", "window", bytes(window)));
    }
    html + "</dl>\n"
}

/// How the bars are to be read.
fn legend(page: &Page<'_>) -> String {
    let bars = "A bar is a chunk, its parts are its modules, the largest first.";
    let window = "The double line marks the window; a striped bar is above it.";
    let window = if page.window.is_some() { window } else { "" };
    format!("<p class=\"legend\">{bars} {window}</p>\n")
}

/// The filters, which the script shows.
fn filters(page: &Page<'_>) -> String {
    let shown = page.shown;
    let numbered = |names: &[String]| {
        let pairs = names.iter().enumerate();
        pairs.map(|(number, name)| (number.to_string(), name.clone())).collect::<Vec<_>>()
    };
    let names: BTreeSet<&String> = shown.chunks.iter().map(|chunk| &chunk.group_name).collect();
    let names: Vec<_> = names.into_iter().map(|name| (name.clone(), name.clone())).collect();
    let mut html = String::from("<form class=\"filters\" hidden>\n");
    html.push_str(&select("group", "group", &numbered(&shown.groups)));
    html.push_str(&select("name", "group name", &names));
    html.push_str(&select("entry", "entry", &numbered(&shown.entries)));
    if page.window.is_some() {
        html.push_str(
            "<label><input type=\"checkbox\" id=\"above\"> only above the window</label>\n",
        );
    }
    html + "<button type=\"reset\">show all</button>\n</form>\n"
}

fn select(id: &str, label: &str, options: &[(String, String)]) -> String {
    let option = |(value, name): &(String, String)| {
        format!("<option value=\"{}\">{}</option>", escaped(value), escaped(name))
    };
    let options: String = options.iter().map(option).collect();
    let all = "<option value=\"\" data-all>all</option>";
    format!("<label>{label} <select id=\"{id}\">{all}{options}</select></label>\n")
}
