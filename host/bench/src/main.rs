//! Times whole builds and leaf calls: the crate's own text and the library, turn by turn, in one
//! process. docs/SPEED.md says what is measured and how.
#![forbid(unsafe_code)]

mod arguments;
mod case;
mod leaves;
mod measure;
mod pass;
mod picture;
mod report;
mod whole;

use std::{env, process::ExitCode, thread};

use arguments::Arguments;
use case::{Agreement, Case};
use leaves::Leaf;
use measure::measure;
use report::{BuildRow, LeafRow};
use shapes::Shape;
use whole::{Library, Whole, undamaged};

/// The crate's text walks dependencies by calling itself, up to 4,096 deep.
const STACK: usize = 1 << 28;

fn main() -> ExitCode {
    let arguments = match Arguments::read(env::args().skip(1)) {
        Ok(arguments) => arguments,
        Err(message) => {
            eprintln!("{message}");
            return ExitCode::FAILURE;
        }
    };
    let work = thread::Builder::new().stack_size(STACK).spawn(move || run(&arguments));
    match work.map(thread::JoinHandle::join) {
        Ok(Ok(true)) => ExitCode::SUCCESS,
        _ => ExitCode::FAILURE,
    }
}

/// Does what is asked for; true if the sides agreed wherever they were compared.
fn run(arguments: &Arguments) -> bool {
    if let Some((shape, count, times)) = arguments.alone {
        alone(shape, count, times);
        return true;
    }
    if let Some(file) = &arguments.picture {
        return said(file, std::fs::write(file, picture::draw(arguments.seconds)));
    }
    tables(arguments)
}

/// The library alone on one build.
fn alone(shape: &Shape, count: u32, times: u32) {
    let mut library = Library::new(&undamaged((shape.build)(count)));
    let best = (0..times).map(|_| library.run()).fold(f64::INFINITY, f64::min);
    println!("{}, {count} modules: {best:.1} µs at best", shape.label);
}

/// Times all that is asked for and prints it; true if the sides agreed.
fn tables(arguments: &Arguments) -> bool {
    let mut builds = Vec::new();
    for shape in &arguments.shapes {
        for count in shape.counts {
            eprintln!("{}, {count} modules", shape.label);
            builds.push(build_row(shape, *count, arguments.seconds));
        }
    }
    let mut leaves = Vec::new();
    for leaf in leaves::ALL.iter().filter(|_| arguments.leaves) {
        eprintln!("{}", leaf.label);
        leaves.push(leaf_row(leaf, arguments.seconds));
    }
    let printed = print(arguments, &builds, &leaves);
    let agreed =
        builds.iter().map(|row| row.agreement).chain(leaves.iter().map(|row| row.agreement));
    agreed.fold(printed, |all, agreement| all && agreement != Agreement::Different)
}

/// Prints the tables or puts them into the file that is named; false if that fails.
fn print(arguments: &Arguments, builds: &[BuildRow], leaves: &[LeafRow]) -> bool {
    let Some(file) = &arguments.into else {
        print!("{}", report::tables(builds, leaves, arguments.markdown));
        return true;
    };
    said(file, report::replace(file, &report::tables(builds, leaves, true)))
}

/// Whether a file was written; if not, says why.
fn said(file: &str, written: std::io::Result<()>) -> bool {
    written.inspect_err(|error| eprintln!("{file}: {error}")).is_ok()
}

fn build_row(shape: &'static Shape, count: u32, seconds: f64) -> BuildRow {
    let chunks = undamaged((shape.build)(count));
    let mut whole = Whole::new(&chunks);
    let agreement = whole.agreement();
    let figures = measure(&mut whole, seconds);
    BuildRow { shape, count, pairs: whole.pairs, chunks: whole.count(), agreement, figures }
}

fn leaf_row(leaf: &'static Leaf, seconds: f64) -> LeafRow {
    let mut row = None;
    (leaf.with)(&mut |case: &mut dyn Case| {
        let agreement = case.agreement();
        row = Some(LeafRow { label: leaf.label, agreement, figures: measure(case, seconds) });
    });
    row.expect("a leaf call runs its case")
}
