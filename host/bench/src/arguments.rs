//! The command line.

use shapes::Shape;

/// What the program is asked for.
pub struct Arguments {
    /// Tables as Markdown.
    pub markdown: bool,
    /// The file that the tables go into as Markdown, in place of those that it has.
    pub into: Option<String>,
    /// How long each row takes or so.
    pub seconds: f64,
    /// The shapes that are timed, all unless some are named.
    pub shapes: Vec<&'static Shape>,
    /// Whether leaf calls are timed too.
    pub leaves: bool,
    /// The file that a picture goes to.
    pub picture: Option<String>,
    /// A shape, a count and how often the library alone runs, for a profiler.
    pub alone: Option<(&'static Shape, u32, u32)>,
}

/// What `--help` prints.
pub const HELP: &str = "\
bench [--markdown | --into FILE] [--seconds S] [--only SHAPE[,SHAPE...]]
bench --picture FILE [--seconds S]
bench --alone SHAPE N TIMES

Times the crate's text and the library turn by turn, on whole builds and leaf calls.
  --markdown   tables as Markdown
  --into       puts them into a file, in place of the tables that it has
  --seconds S  how long each row takes or so, 2 unless said
  --only       these shapes and no leaf calls; `leaves` stands for the leaf calls
  --picture    writes a picture of time against modules into an SVG file
  --alone      runs the library alone on a shape with N modules, for a profiler
Shapes:";

impl Arguments {
    /// Reads the words after the program's name.
    pub fn read(mut words: impl Iterator<Item = String>) -> Result<Self, String> {
        let shapes = shapes::ALL.iter().collect();
        let mut read = Self {
            markdown: false,
            into: None,
            seconds: 2.0,
            shapes,
            leaves: true,
            picture: None,
            alone: None,
        };
        while let Some(word) = words.next() {
            let mut value = || words.next().ok_or(format!("{word} needs a value"));
            match word.as_str() {
                "--markdown" => read.markdown = true,
                "--into" => read.into = Some(value()?),
                "--seconds" => read.seconds = number(&value()?)?,
                "--only" => read.only(&value()?)?,
                "--picture" => read.picture = Some(value()?),
                "--alone" => {
                    read.alone = Some((shape(&value()?)?, number(&value()?)?, number(&value()?)?));
                }
                _ => return Err(format!("{HELP} {}", keys())),
            }
        }
        Ok(read)
    }

    fn only(&mut self, keys: &str) -> Result<(), String> {
        let named = keys.split(',').filter(|key| *key != "leaves");
        self.shapes = named.map(shape).collect::<Result<_, _>>()?;
        self.leaves = keys.split(',').any(|key| key == "leaves");
        Ok(())
    }
}

fn shape(key: &str) -> Result<&'static Shape, String> {
    shapes::by_key(key).ok_or(format!("no shape {key}; there are {}", keys()))
}

fn number<T: std::str::FromStr>(word: &str) -> Result<T, String> {
    word.parse().map_err(|_| format!("no number: {word}"))
}

fn keys() -> String {
    shapes::ALL.iter().map(|shape| shape.key).collect::<Vec<_>>().join(" ")
}
