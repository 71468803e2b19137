//! The page: opened in a real browser, its numbers are the list's; what isn't proved is marked.

mod common;

use std::{fs, path::PathBuf};

use chunklist::tree::{HostReading, NamedList, Shown, ShownChunk, TreeBuild, page};
use common::{
    Ran,
    browser::{browser, folder, opened},
    run,
    samples::{content, path},
};

/// The window that the sample is shown against.
const WINDOW: u64 = 65_536;

/// The sample with its list.
fn sample() -> (TreeBuild, NamedList) {
    let build = TreeBuild::read(&content("widgets.tree"), "widgets", None).expect("a tree");
    let list = build.ask().outcome.expect("the library accepts it");
    (build, list)
}

/// The page that the program writes.
fn written(test: &str, arguments: &[&str], input: &str) -> PathBuf {
    let page = folder(test).join("page.html");
    let html = ["--html", page.to_str().expect("a path of UTF-8")];
    let Ran { messages, status, .. } = run(&[arguments, &html].concat(), input.as_bytes());
    assert_eq!(messages, "");
    assert!(matches!(status, Some(0 | 3)), "{status:?}");
    page
}

#[test]
fn a_page_that_was_there_is_not_taken_for_a_refused_trees() {
    let page = folder("refused").join("page.html");
    fs::write(&page, "an earlier page").expect("a file");
    let name = page.to_str().expect("a path of UTF-8");
    for input in ["module a 1\nmodule a 1\n", "modul a 1\n"] {
        let Ran { messages, status, .. } = run(&["--tree", "--html", name], input.as_bytes());
        let last = format!("chunklist: {name}: no page was written; this one was there before\n");
        assert!(messages.lines().count() > 1 && messages.ends_with(&last), "{messages}");
        assert_eq!(status, Some(1));
    }
    assert_eq!(fs::read_to_string(&page).expect("the file"), "an earlier page");
}

/// The text of the element with this id.
fn element<'a>(dom: &'a str, id: &str) -> &'a str {
    let start = format!(" id=\"{id}\">");
    let (_, after) = dom.split_once(&start).unwrap_or_else(|| panic!("{id} is there"));
    after.split_once('<').expect("it ends").0
}

/// What the page counts as shown: chunks, modules, bytes, above the window.
fn counted(dom: &str) -> [u64; 4] {
    let ids = ["shown-chunks", "shown-modules", "shown-bytes", "shown-above"];
    ids.map(|id| element(dom, id).replace(',', "").parse().expect("a number"))
}

/// The same by the list, of the chunks that are wanted.
fn by_list(shown: &Shown, wanted: impl Fn(&&ShownChunk) -> bool) -> [u64; 4] {
    let chunks: Vec<&ShownChunk> = shown.chunks.iter().filter(wanted).collect();
    let modules: usize = chunks.iter().map(|chunk| chunk.modules.len()).sum();
    let above = chunks.iter().filter(|chunk| chunk.size > WINDOW).count();
    [chunks.len() as u64, modules as u64, chunks.iter().map(|chunk| chunk.size).sum(), above as u64]
}

#[test]
fn the_numbers_of_the_page_are_those_of_the_list() {
    let Some(browser) = browser() else { return };
    let (build, list) = sample();
    let shown = Shown::new(&build, &list);
    let page = written("numbers", &[&path("widgets.tree"), "--window", "64k"], "");
    let dom = opened(&browser, &page, "");
    assert!(dom.contains("data-sums=\"agree\""), "modules add to their chunks");
    assert_eq!(counted(&dom), by_list(&shown, |_| true));
    for chunk in &shown.chunks {
        let (number, size) = (chunk.number, chunk.size);
        let (_, article) = dom.split_once(&format!("id=\"chunk-{number}\"")).expect("the chunk");
        let (opening, _) = article.split_once('>').expect("it ends");
        assert!(opening.contains(&format!("data-size=\"{size}\"")), "{opening}");
    }
    assert_eq!(element(&dom, "window"), "65,536");
}

#[test]
fn filters_stand_in_the_address() {
    let Some(browser) = browser() else { return };
    let (build, list) = sample();
    let shown = Shown::new(&build, &list);
    let page = written("filters", &[&path("widgets.tree"), "--window", "64k"], "");
    let at = |fragment: &str| counted(&opened(&browser, &page, fragment));
    assert_eq!(at("group=3"), by_list(&shown, |chunk| chunk.group == 3));
    assert_eq!(at("entry=1"), by_list(&shown, |chunk| chunk.entries.contains(&1)));
    assert_eq!(at("name=theme-dark"), by_list(&shown, |chunk| chunk.name == "theme-dark"));
    let widgets = by_list(&shown, |chunk| chunk.name.starts_with("widgets~"));
    assert_eq!((at("name=widgets"), widgets[0]), (widgets, 4));
    assert_eq!(at("above=1"), by_list(&shown, |chunk| chunk.size > WINDOW));
    let both = by_list(&shown, |chunk| chunk.group == 0 && chunk.entries.contains(&0));
    assert_eq!(at("group=0&entry=0"), both);
    assert!(both[0] > 0 && both[0] < shown.chunks.len() as u64, "{both:?}");
}

/// What a person does: chooses a group, then an entry too, then takes both back.
#[test]
fn filters_can_be_changed_and_taken_back() {
    let Some(browser) = browser() else { return };
    let (build, list) = sample();
    let shown = Shown::new(&build, &list);
    let page = written("changed", &[&path("widgets.tree"), "--window", "64k"], "");
    let html = fs::read_to_string(&page).expect("a page");
    let choose = |id: &str, number: u32| {
        format!(
            "document.getElementById('{id}').value = '{number}';\n\
             document.getElementById('{id}').dispatchEvent(new Event('change', {{bubbles: true}}));\n\
             document.body.dataset.address = location.hash;\n"
        )
    };
    let after = |steps: &str| {
        let acted = html.replace("</body>", &format!("<script>\n{steps}</script>\n</body>"));
        fs::write(&page, acted).expect("the page can be written");
        opened(&browser, &page, "")
    };
    let both = choose("group", 0) + &choose("entry", 1);
    let dom = after(&both);
    assert_eq!(counted(&dom), by_list(&shown, |one| one.group == 0 && one.entries.contains(&1)));
    assert!(dom.contains("data-address=\"#group=0&amp;entry=1\""), "{dom}");
    let dom = after(&(both + "document.querySelector('[type=reset]').click();\n"));
    assert_eq!(counted(&dom), by_list(&shown, |_| true));
}

#[test]
fn ids_cannot_become_a_part_of_the_page() {
    let Some(browser) = browser() else { return };
    let tree = "module \"</style><img src=x>&\" 5\ngroup \"<b>'\" name \"<i>{1}\"\n";
    let dom = opened(&browser, &written("marks", &["--tree"], tree), "");
    assert!(dom.contains("&lt;/style&gt;&lt;img src=x&gt;&amp;"), "{dom}");
    assert!(!dom.contains("<img") && !dom.contains("<b>") && !dom.contains("<i>"), "{dom}");
    assert!(dom.contains("data-sums=\"agree\""), "{dom}");
}

#[test]
fn the_page_needs_nothing_else() {
    let (build, list) = sample();
    let html = page(&build, &list, &build.read_by_host(&list), Some(WINDOW));
    for outside in ["http:", "https:", "src=", "<link", "@import", "url(", "fetch("] {
        assert!(!html.contains(outside), "{outside}");
    }
}

#[test]
fn what_was_dropped_cut_or_left_is_told_as_not_proved() {
    let (build, list) = sample();
    let reading = build.read_by_host(&list);
    assert!(reading.agrees);
    let html = page(&build, &list, &reading, None);
    for line in [
        "vendor / vendor-polyfill was dropped: 3072 bytes, min_size 8192.",
        "themes / theme-contrast was dropped: 4096 bytes, min_size 8192.",
        "It, of 67584 bytes, was cut into 37888 and 29696, in id order.",
        "by their smallest ids at the start; its own is widgets/date/calendar.js.",
    ] {
        let (before, _) = html.split_once(line).unwrap_or_else(|| panic!("{line}"));
        let mark = before.rfind("host's reading, not proved").expect("a mark");
        assert!(!before[mark..].contains("</details>"), "the mark stands in the same part: {line}");
    }
    assert!(html.contains("external, so it takes no part"));
}

#[test]
fn each_chunk_has_its_name_and_filters_go_by_the_groups() {
    let (build, list) = sample();
    let html = page(&build, &list, &build.read_by_host(&list), None);
    for (chunk, name) in list.chunks.iter().zip(&list.names) {
        let heading = format!("<h2>{} <span class=\"name\">{name}</span>", chunk.chunk);
        assert!(html.contains(&heading), "{heading}");
    }
    assert_eq!(html.matches(" data-name=\"widgets\" ").count(), 4);
    assert!(html.contains("<option value=\"widgets\">widgets</option>"));
    assert_eq!(html.matches("the name is <code>widgets</code>, then its entries;").count(), 4);
    assert!(html.contains("the name is <code>theme-{2}</code>.</p>"));
}

#[test]
fn a_reading_that_differs_is_said_loudly() {
    let (build, list) = sample();
    let reading = HostReading { agrees: false, ..build.read_by_host(&list) };
    let html = page(&build, &list, &reading, None);
    assert!(
        html.contains(
            "<p class=\"differs\" role=\"note\" id=\"reading\">THE HOST&#39;S OWN READING"
        )
    );
    let mut other = list.clone();
    other.list.chunks[0].name += 1;
    assert!(!build.read_by_host(&other).agrees);
    // Even a list that the reading knows nothing of can be shown.
    other.list.chunks[0].chunk = 99;
    assert!(page(&build, &other, &build.read_by_host(&other), None).contains("no such chunk"));
}

#[test]
fn load_numbers_do_not_show() {
    let plain = written("plain", &[&path("widgets.tree")], "");
    let shuffled = written("shuffled", &[&path("widgets.tree"), "--shuffle", "5"], "");
    let [plain, shuffled] = [plain, shuffled].map(|page| fs::read_to_string(page).expect("a page"));
    assert_eq!(plain, shuffled);
}
