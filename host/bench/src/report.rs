//! The tables.

use std::{fs, io};

use crate::{
    case::Agreement,
    measure::{Figures, Times},
};
use shapes::Shape;

/// A whole build.
pub struct BuildRow {
    pub shape: &'static Shape,
    pub count: u32,
    pub pairs: usize,
    pub chunks: usize,
    pub agreement: Agreement,
    pub figures: Figures,
}

/// A leaf call.
pub struct LeafRow {
    pub label: &'static str,
    pub agreement: Agreement,
    pub figures: Figures,
}

/// What stands before and after the tables in a file that they are put into.
const BEGIN: &str = "<!-- tables: begin -->\n";
const END: &str = "<!-- tables: end -->\n";

/// A table: its title, its columns, of which all but the first are numbers, and its rows.
struct Table {
    title: &'static str,
    columns: Vec<&'static str>,
    rows: Vec<Vec<String>>,
}

/// The columns that builds and leaf calls share.
const FIGURES: [&str; 9] = [
    "crate best",
    "crate median",
    "library best",
    "library median",
    "crate / library",
    "pass",
    "library / pass",
    "turns",
    "answers",
];

/// All tables, one after another.
pub fn tables(builds: &[BuildRow], leaves: &[LeafRow], markdown: bool) -> String {
    let all = [of_builds(builds), of_growth(builds), of_leaves(leaves)];
    let filled = all.iter().filter(|table| !table.rows.is_empty());
    filled.map(|table| table.text(markdown)).collect::<Vec<_>>().join("\n")
}

/// Puts the tables into a file, in place of those that it has.
pub fn replace(file: &str, tables: &str) -> io::Result<()> {
    let text = fs::read_to_string(file)?;
    let parts = text
        .split_once(BEGIN)
        .and_then(|(before, rest)| rest.split_once(END).map(|(_, after)| (before, after)));
    let Some((before, after)) = parts else {
        return Err(io::Error::other("no lines that begin and end the tables"));
    };
    fs::write(file, format!("{before}{BEGIN}\n{tables}\n{END}{after}"))
}

/// Each shape at each count.
fn of_builds(rows: &[BuildRow]) -> Table {
    let columns = [["build", "N", "P", "chunks"].as_slice(), &FIGURES].concat();
    let row = |row: &BuildRow| {
        let counts = [row.count as usize, row.pairs, row.chunks].map(|count| grouped(count as u64));
        let mut cells = vec![row.shape.label.to_string()];
        cells.extend(counts);
        cells.extend(figures(&row.figures, row.agreement));
        cells
    };
    Table { title: "Whole builds", columns, rows: rows.iter().map(row).collect() }
}

/// From the lower count of each shape to the higher; growth is that of the best times.
fn of_growth(rows: &[BuildRow]) -> Table {
    let columns = vec![
        "build",
        "crate / library at 900",
        "at 4,096",
        "library / pass at 900",
        "at 4,096",
        "growth of the crate",
        "of the library",
    ];
    let pairs = rows.windows(2).filter(|pair| pair[0].shape.key == pair[1].shape.key);
    let row = |pair: &[BuildRow]| {
        let [low, high] = [&pair[0].figures, &pair[1].figures];
        let numbers = [
            low.ratio,
            high.ratio,
            low.passes,
            high.passes,
            high.of_crate.best / low.of_crate.best,
            high.library.best / low.library.best,
        ];
        let mut cells = vec![pair[0].shape.label.to_string()];
        cells.extend(numbers.map(short));
        cells
    };
    Table { title: "Ratios and growth", columns, rows: pairs.map(row).collect() }
}

fn of_leaves(rows: &[LeafRow]) -> Table {
    let columns = [["leaf call"].as_slice(), &FIGURES].concat();
    let row = |row: &LeafRow| {
        let mut cells = vec![row.label.to_string()];
        cells.extend(figures(&row.figures, row.agreement));
        cells
    };
    Table { title: "Leaf calls", columns, rows: rows.iter().map(row).collect() }
}

fn figures(figures: &Figures, agreement: Agreement) -> [String; 9] {
    let Figures { of_crate, library, pass, ratio, passes, series, turns } = figures;
    let best = |times: &Times| short(times.best);
    let median = |times: &Times| short(times.median);
    [
        best(of_crate),
        median(of_crate),
        best(library),
        median(library),
        short(*ratio),
        median(pass),
        short(*passes),
        format!("{series}×{turns}"),
        agreement.word().to_string(),
    ]
}

/// Three digits or more.
fn short(number: f64) -> String {
    match number {
        _ if number < 1.0 => format!("{number:.3}"),
        _ if number < 10.0 => format!("{number:.2}"),
        _ if number < 100.0 => format!("{number:.1}"),
        _ => grouped(number.round() as u64),
    }
}

/// A number with a comma at each thousand.
pub fn grouped(number: u64) -> String {
    if number < 1_000 {
        return number.to_string();
    }
    format!("{},{:03}", grouped(number / 1_000), number % 1_000)
}

impl Table {
    fn text(&self, markdown: bool) -> String {
        if markdown { self.markdown() } else { self.plain() }
    }

    fn markdown(&self) -> String {
        let line = |cells: Vec<&str>| format!("| {} |\n", cells.join(" | "));
        let ruler = (0..self.columns.len()).map(|at| if at == 0 { "---" } else { "---:" });
        let mut text = format!("### {}\n\n", self.title);
        text += &(line(self.columns.clone()) + &line(ruler.collect()));
        for row in &self.rows {
            text += &line(row.iter().map(String::as_str).collect());
        }
        text
    }

    fn plain(&self) -> String {
        let columns = self.columns.iter().map(|column| column.to_string()).collect();
        let lines: Vec<&Vec<String>> = std::iter::once(&columns).chain(&self.rows).collect();
        let width = |at: usize| lines.iter().map(|line| line[at].chars().count()).max();
        let widths: Vec<usize> = (0..columns.len()).map(|at| width(at).unwrap_or(0)).collect();
        let cell = |(at, cell): (usize, &String)| match at {
            0 => format!("{cell:<0$}", widths[at]),
            _ => format!("  {cell:>0$}", widths[at]),
        };
        lines
            .iter()
            .map(|line| line.iter().enumerate().map(cell).collect::<String>() + "\n")
            .collect()
    }
}
