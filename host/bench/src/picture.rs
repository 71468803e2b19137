//! A picture of time against modules, on logarithmic axes, as SVG.

use std::fmt::Write;

use crate::{
    measure::{Figures, measure},
    report::grouped,
    whole::{Whole, undamaged},
};
use shapes::{Shape, by_key};

/// The shapes in the picture, each with its colour.
const SHAPES: [(&str, &str); 5] = [
    ("flat", "#1b6ca8"),
    ("pieces", "#2e8540"),
    ("names", "#7a4fa3"),
    ("aware", "#c77700"),
    ("deep", "#b3261e"),
];

/// The counts of modules.
const COUNTS: [u32; 6] = [100, 225, 450, 900, 1_800, 4_096];

/// Width and height of the whole, and the corners of the axes.
const WHOLE: (f64, f64) = (1_000.0, 640.0);
const LEFT: f64 = 86.0;
const RIGHT: f64 = 700.0;
const TOP: f64 = 54.0;
const BOTTOM: f64 = 570.0;

/// The axes go from 90 to 4,600 modules, and from 1 µs to 1 s.
const MODULES: (f64, f64) = (90.0, 4_600.0);
const MICROS: (f64, f64) = (1.0, 1e6);

/// How the lines of the crate, of the library and of a pass are drawn.
const CRATE: &str = "stroke-width=\"2\" stroke-dasharray=\"7 5\"";
const LIBRARY: &str = "stroke-width=\"2.6\"";
const PASS: &str = "stroke-width=\"2\" stroke-dasharray=\"2 4\"";

/// A shape with what was measured at each count.
struct Measured {
    shape: &'static Shape,
    colour: &'static str,
    figures: Vec<Figures>,
}

/// Times the shapes and draws them.
pub fn draw(seconds: f64) -> String {
    let measured: Vec<Measured> =
        SHAPES.iter().map(|(key, colour)| of(key, colour, seconds)).collect();
    let (width, height) = WHOLE;
    let mut svg = format!(
        "<svg xmlns=\"http://www.w3.org/2000/svg\" viewBox=\"0 0 {width} {height}\" \
         font-family=\"sans-serif\" font-size=\"14\">\n<rect width=\"{width}\" height=\"{height}\" \
         fill=\"white\"/>\n"
    );
    svg += &axes();
    for one in &measured {
        svg += &curves(one);
    }
    svg += &line(&micros(&measured[0], |figures| figures.pass.median), "#777777", PASS);
    svg += &legend(&measured);
    svg + "</svg>\n"
}

fn of(key: &str, colour: &'static str, seconds: f64) -> Measured {
    let shape = by_key(key).expect("a shape");
    let figures = |count: &u32| {
        eprintln!("{}, {count} modules", shape.label);
        measure(&mut Whole::new(&undamaged((shape.build)(*count))), seconds)
    };
    Measured { shape, colour, figures: COUNTS.iter().map(figures).collect() }
}

/// Where a count of modules lies.
fn x(modules: f64) -> f64 {
    LEFT + (RIGHT - LEFT) * (modules / MODULES.0).ln() / (MODULES.1 / MODULES.0).ln()
}

/// Where a time lies.
fn y(micros: f64) -> f64 {
    BOTTOM - (BOTTOM - TOP) * (micros / MICROS.0).ln() / (MICROS.1 / MICROS.0).ln()
}

/// The frame, a line for each decade and each count, and what they mean.
fn axes() -> String {
    let mut svg = String::new();
    for (decade, label) in (0..).zip(["1 µs", "10 µs", "100 µs", "1 ms", "10 ms", "100 ms", "1 s"])
    {
        let at = y(10_f64.powi(decade));
        svg += &ruler((LEFT, at), (RIGHT, at));
        svg += &label_at((LEFT - 10.0, at + 5.0), "end", label);
    }
    for count in COUNTS {
        let at = x(f64::from(count));
        svg += &ruler((at, TOP), (at, BOTTOM));
        svg += &label_at((at, BOTTOM + 22.0), "middle", &grouped(u64::from(count)));
    }
    let (width, height) = (RIGHT - LEFT, BOTTOM - TOP);
    let _ = writeln!(
        svg,
        "<rect x=\"{LEFT}\" y=\"{TOP}\" width=\"{width}\" height=\"{height}\" fill=\"none\" \
         stroke=\"#333333\"/>"
    );
    svg += &label_at(((LEFT + RIGHT) / 2.0, BOTTOM + 50.0), "middle", "modules");
    svg + &label_at(
        (LEFT, TOP - 20.0),
        "start",
        "Time of a whole build, median; both axes logarithmic",
    )
}

fn ruler(from: (f64, f64), to: (f64, f64)) -> String {
    let ((a, b), (c, d)) = (from, to);
    format!("<line x1=\"{a:.1}\" y1=\"{b:.1}\" x2=\"{c:.1}\" y2=\"{d:.1}\" stroke=\"#dddddd\"/>\n")
}

fn label_at(at: (f64, f64), anchor: &str, label: &str) -> String {
    let (a, b) = at;
    format!(
        "<text x=\"{a:.1}\" y=\"{b:.1}\" text-anchor=\"{anchor}\" fill=\"#222222\">{label}</text>\n"
    )
}

/// The points of one side of a shape.
fn micros(measured: &Measured, side: fn(&Figures) -> f64) -> Vec<(f64, f64)> {
    let counts = COUNTS.iter().zip(&measured.figures);
    counts.map(|(count, figures)| (x(f64::from(*count)), y(side(figures)))).collect()
}

/// Both sides of a shape, with a mark at each count.
fn curves(measured: &Measured) -> String {
    let of_crate = micros(measured, |figures| figures.of_crate.median);
    let library = micros(measured, |figures| figures.library.median);
    line(&of_crate, measured.colour, CRATE)
        + &line(&library, measured.colour, LIBRARY)
        + &marks(&of_crate, measured.colour, "white")
        + &marks(&library, measured.colour, measured.colour)
}

fn line(points: &[(f64, f64)], colour: &str, style: &str) -> String {
    let points: Vec<String> = points.iter().map(|(a, b)| format!("{a:.1},{b:.1}")).collect();
    let points = points.join(" ");
    format!("<polyline points=\"{points}\" fill=\"none\" stroke=\"{colour}\" {style}/>\n")
}

fn marks(points: &[(f64, f64)], colour: &str, fill: &str) -> String {
    let mark = |(a, b): &(f64, f64)| {
        format!(
            "<circle cx=\"{a:.1}\" cy=\"{b:.1}\" r=\"3.6\" fill=\"{fill}\" stroke=\"{colour}\"/>\n"
        )
    };
    points.iter().map(mark).collect()
}

/// What the lines and the colours mean.
fn legend(measured: &[Measured]) -> String {
    let mut rows = vec![
        ("#333333", CRATE, "white", "the crate"),
        ("#333333", LIBRARY, "#333333", "the library"),
        ("#777777", PASS, "none", "one pass over flat's tables"),
    ];
    rows.extend(measured.iter().map(|one| (one.colour, LIBRARY, one.colour, one.shape.label)));
    let mut svg = String::new();
    for (place, (colour, style, fill, label)) in rows.into_iter().enumerate() {
        let gap = if place < 3 { 0.0 } else { 18.0 };
        let (at, height) = (RIGHT + 20.0, TOP + 14.0 + 26.0 * place as f64 + gap);
        svg += &line(&[(at, height), (at + 34.0, height)], colour, style);
        if fill != "none" {
            svg += &marks(&[(at + 17.0, height)], colour, fill);
        }
        svg += &label_at((at + 44.0, height + 5.0), "start", label);
    }
    svg
}
