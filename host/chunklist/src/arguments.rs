//! The arguments of the program.

use std::{ffi::OsString, path::PathBuf};

use text::{Quoted, tree::whole_size};

/// What the program is asked for.
#[derive(Debug, Clone, PartialEq, Eq)]
pub enum Request {
    /// Print the help.
    Help,
    /// Answer the calls of a file, or of standard input.
    Answer(Option<PathBuf>),
    /// Show the chunk list of a tree.
    Tree(TreeRequest),
}

/// What is asked of a tree.
#[derive(Debug, Clone, PartialEq, Eq, Default)]
pub struct TreeRequest {
    /// The file, or standard input.
    pub file: Option<PathBuf>,
    /// Draw the load numbers with this seed.
    pub shuffle: Option<u32>,
    /// Print the exact form and ask nothing.
    pub as_calls: bool,
    /// Draw the chunks against a window of so many bytes.
    pub window: Option<u64>,
    /// Write a page to this file.
    pub html: Option<PathBuf>,
}

/// The options that only a tree has.
const OF_TREES: [&str; 5] = ["--tree", "--as-calls", "--shuffle", "--window", "--html"];

/// The arguments as far as they have been read.
#[derive(Default)]
struct Read {
    tree: TreeRequest,
    file: Option<OsString>,
    only_files: bool,
    /// The options of a tree that were given.
    given: Vec<&'static str>,
}

/// Reads the arguments; the error is a message.
pub fn request(arguments: impl IntoIterator<Item = OsString>) -> Result<Request, String> {
    let mut read = Read::default();
    let mut arguments = arguments.into_iter();
    while let Some(argument) = arguments.next() {
        match argument.to_str() {
            Some("--help" | "-h") if !read.only_files => return Ok(Request::Help),
            Some("--") if !read.only_files => read.only_files = true,
            Some(option) if !read.only_files && option.len() > 1 && option.starts_with('-') => {
                read.option(option, &mut arguments)?;
            }
            _ => match read.file.replace(argument) {
                None => {}
                Some(_) => return Err("at most one file can be named".into()),
            },
        }
    }
    read.finished()
}

impl Read {
    /// An option of trees, `--window 64k` or `--window=64k`.
    fn option(
        &mut self,
        argument: &str,
        rest: &mut impl Iterator<Item = OsString>,
    ) -> Result<(), String> {
        let (option, joined) = match argument.split_once('=') {
            Some((option, value)) => (option, Some(OsString::from(value))),
            None => (argument, None),
        };
        let Some(option) = OF_TREES.into_iter().find(|known| *known == option) else {
            return Err(format!("there is no option {}", Quoted(argument)));
        };
        if self.given.contains(&option) {
            return Err(format!("{option} is given twice"));
        }
        self.given.push(option);
        if ["--tree", "--as-calls"].contains(&option) {
            self.tree.as_calls |= option == "--as-calls";
            return joined.map_or(Ok(()), |_| Err(format!("{option} takes no value")));
        }
        let value = joined.or_else(|| rest.next());
        self.value(option, value.ok_or(format!("{option} needs a value"))?)
    }

    /// The value of an option.
    fn value(&mut self, option: &str, value: OsString) -> Result<(), String> {
        let text = value.to_str().unwrap_or_default();
        match option {
            "--shuffle" => {
                let seed = text.parse().map_err(|_| "--shuffle takes a number below 2^32")?;
                self.tree.shuffle = Some(seed);
            }
            "--window" => {
                let window = whole_size(text).filter(|window| *window > 0);
                self.tree.window = Some(window.ok_or("--window takes a size like 4096 or 64k")?);
            }
            _ if value.is_empty() => return Err("--html takes the name of a file".into()),
            _ => self.tree.html = Some(value.into()),
        }
        Ok(())
    }

    /// A tree is told by an option, or by the name of its file.
    fn finished(self) -> Result<Request, String> {
        let Self { mut tree, file, only_files, given } = self;
        let file = file.filter(|name| only_files || name != "-").map(PathBuf::from);
        let named =
            file.as_ref().is_some_and(|file| file.extension().is_some_and(|end| end == "tree"));
        if !named && !given.contains(&"--tree") {
            return match given.first() {
                None => Ok(Request::Answer(file)),
                Some(option) => {
                    Err(format!("{option} goes with a file that ends in .tree, or with --tree"))
                }
            };
        }
        if tree.as_calls && (tree.window.is_some() || tree.html.is_some()) {
            return Err("--as-calls goes without --window and --html".into());
        }
        tree.file = file;
        Ok(Request::Tree(tree))
    }
}

#[cfg(test)]
mod tests {
    use super::{Request, TreeRequest, request};

    fn read(arguments: &[&str]) -> Result<Request, String> {
        request(arguments.iter().map(Into::into))
    }

    #[test]
    fn a_file_or_standard_input() {
        assert_eq!(read(&[]), Ok(Request::Answer(None)));
        assert_eq!(read(&["-"]), Ok(Request::Answer(None)));
        assert_eq!(read(&["a.txt"]), Ok(Request::Answer(Some("a.txt".into()))));
        assert_eq!(read(&["--", "-a"]), Ok(Request::Answer(Some("-a".into()))));
        assert_eq!(read(&["--", "-"]), Ok(Request::Answer(Some("-".into()))));
    }

    #[test]
    fn help_and_bad_usage() {
        assert_eq!(read(&["-h"]), Ok(Request::Help));
        assert_eq!(read(&["a.txt", "--help"]), Ok(Request::Help));
        assert_eq!(read(&["--fast"]), Err("there is no option --fast".into()));
        assert_eq!(read(&["a.txt", "b.txt"]), Err("at most one file can be named".into()));
    }

    #[test]
    fn a_tree_is_told_by_its_name_or_an_option() {
        let file = TreeRequest { file: Some("a.tree".into()), ..TreeRequest::default() };
        assert_eq!(read(&["a.tree"]), Ok(Request::Tree(file.clone())));
        assert_eq!(read(&["--tree"]), Ok(Request::Tree(TreeRequest::default())));
        let all = TreeRequest {
            window: Some(65_536),
            html: Some("a.html".into()),
            shuffle: Some(7),
            ..file
        };
        let given = ["--window", "64k", "a.tree", "--html=a.html", "--shuffle=7"];
        assert_eq!(read(&given), Ok(Request::Tree(all)));
    }

    #[test]
    fn bad_usage_of_trees() {
        for (given, message) in [
            (
                vec!["a.txt", "--window", "9"],
                "--window goes with a file that ends in .tree, or with --tree",
            ),
            (vec!["a.tree", "--window", "0"], "--window takes a size like 4096 or 64k"),
            (vec!["a.tree", "--window", "x"], "--window takes a size like 4096 or 64k"),
            (vec!["a.tree", "--window"], "--window needs a value"),
            (vec!["a.tree", "--shuffle", "-1"], "--shuffle takes a number below 2^32"),
            (vec!["a.tree", "--as-calls=1"], "--as-calls takes no value"),
            (vec!["a.tree", "--tree", "--tree"], "--tree is given twice"),
            (vec!["a.tree", "--html="], "--html takes the name of a file"),
            (
                vec!["a.tree", "--as-calls", "--window", "1"],
                "--as-calls goes without --window and --html",
            ),
        ] {
            assert_eq!(read(&given), Err(message.into()), "{given:?}");
        }
    }
}
