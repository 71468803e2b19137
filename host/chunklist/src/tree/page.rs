//! One page for a browser that needs nothing else: chunks against the window, and why they are so.

mod chunk;
mod escape;
mod head;

use super::{HostReading, NamedList, Shown, TreeBuild, why};
use chunk::Page;
use escape::escaped;

const STYLE: &str = include_str!("page/page.css");
const SCRIPT: &str = include_str!("page/page.js");

/// The page of a list.
pub fn page(
    build: &TreeBuild,
    list: &NamedList,
    reading: &HostReading,
    window: Option<u64>,
) -> String {
    let shown = Shown::new(build, list);
    let why = why::Why::new(build, list, reading);
    let page = Page { build, shown: &shown, why: &why, window };
    let title = escaped(&shown.title);
    let mut html = String::new();
    html.push_str("<!doctype html>\n<html lang=\"en\">\n<meta charset=\"utf-8\">\n");
    html.push_str("<meta name=\"viewport\" content=\"width=device-width, initial-scale=1\">\n");
    html.push_str(&format!("<title>{title}: chunks</title>\n<style>\n{STYLE}</style>\n"));
    let class = if window.is_some() { "windowed" } else { "plain" };
    let share = page.window_share();
    html.push_str(&format!("<body class=\"{class}\" style=\"--window: {share}%\">\n<main>\n"));
    html.push_str(&head::head(&page, reading));
    html.push_str("<section aria-label=\"Chunks\">\n");
    shown.chunks.iter().for_each(|chunk| html.push_str(&page.chunk(chunk)));
    html.push_str("</section>\n");
    html.push_str(&page.left());
    html.push_str(&format!("</main>\n<script>\n{SCRIPT}</script>\n</body>\n</html>\n"));
    html
}
