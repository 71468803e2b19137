//! Shows the chunk list of a tree, by what the arguments ask for.

use std::{
    fs,
    io::{self, IsTerminal, Write},
    process::ExitCode,
};

use chunklist::tree::{self, HostReading, Shown, TreeBuild};
use text::ChunkList;

use crate::{arguments::TreeRequest, finished, input::Source, progress::Progress, say};

/// The exit status of a chunk above the window.
const ABOVE_WINDOW: u8 = 3;

/// Reads a tree, asks, and prints what is wanted.
pub fn show_tree(request: &TreeRequest) -> ExitCode {
    let source = Source(request.file.clone());
    match read(&source, request) {
        Ok(build) if request.as_calls => printed(&tree::as_calls(&build), true),
        Ok(build) => answered(&source, &build, request),
        Err(message) => without_page(&source, &message, request),
    }
}

/// Says what is wrong, and that a page which is there already is not of this tree.
fn without_page(source: &Source, message: &str, request: &TreeRequest) -> ExitCode {
    say(&format!("{}: {message}", source.name()));
    if let Some(file) = request.html.as_ref().filter(|file| file.exists()) {
        say(&format!("{}: no page was written; this one was there before", file.display()));
    }
    ExitCode::FAILURE
}

fn read(source: &Source, request: &TreeRequest) -> Result<TreeBuild, String> {
    let bytes = source.text()?;
    let text = text::whole_text(&bytes).map_err(|error| error.to_string())?;
    let _progress = Progress::of(format!("reading {}", source.name()));
    TreeBuild::read(text, &source.stem(), request.shuffle).map_err(|error| error.to_string())
}

/// Asks the library and shows what it answers.
fn answered(source: &Source, build: &TreeBuild, request: &TreeRequest) -> ExitCode {
    let modules = build.tree.modules.len();
    let progress = Progress::of(format!("the library makes the list of {modules} modules"));
    let answer = build.ask();
    drop(progress);
    for warning in &answer.warnings {
        say(&format!("{}: ! {warning}", source.name()));
    }
    let list = match answer.outcome {
        Ok(list) => list,
        Err(number) => return without_page(source, &tree::refused(build, number), request),
    };
    let mut clean = answer.warnings.is_empty();
    if let Some(file) = &request.html {
        let reading = host_reading(build, &list);
        clean &= reading.agrees;
        let page = tree::page(build, &list, &reading, request.window);
        if let Err(error) = fs::write(file, page) {
            say(&format!("{}: the page can't be written: {error}", file.display()));
            return ExitCode::FAILURE;
        }
    }
    shown(&Shown::new(build, &list), request.window, clean)
}

/// The host's own reading; that it differs from the library is said, since one of them is wrong.
fn host_reading(build: &TreeBuild, list: &ChunkList) -> HostReading {
    let _progress = Progress::of("the host reads the build for itself".into());
    let reading = build.read_by_host(list);
    if !reading.agrees {
        say("! THE HOST'S OWN READING COMES TO ANOTHER LIST; the page shows the library's");
    }
    reading
}

/// Prints the picture or the list.
fn shown(shown: &Shown, window: Option<u64>, clean: bool) -> ExitCode {
    let Some(window) = window else {
        return printed(&tree::list(shown), clean);
    };
    let colours = io::stdout().is_terminal() && std::env::var_os("NO_COLOR").is_none();
    let status = printed(&tree::picture(shown, window, colours), clean);
    if clean && status == ExitCode::SUCCESS && !shown.above(window).is_empty() {
        return ExitCode::from(ABOVE_WINDOW);
    }
    status
}

fn printed(text: &str, clean: bool) -> ExitCode {
    let mut output = io::stdout().lock();
    finished(output.write_all(text.as_bytes()).and_then(|()| output.flush()).map(|()| clean))
}
