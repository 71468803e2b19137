//! Reads the text to be answered.

use std::{
    fs,
    io::{self, Read},
    path::{Path, PathBuf},
};

use text::Quoted;

/// Where the text comes from.
pub struct Source(pub Option<PathBuf>);

impl Source {
    /// Its name in messages.
    pub fn name(&self) -> String {
        match &self.0 {
            Some(path) => Quoted(&path.to_string_lossy()).to_string(),
            None => "standard input".into(),
        }
    }

    /// The name of its file without folders and ending, if it has one.
    pub fn stem(&self) -> String {
        let stem = self.0.as_ref().and_then(|path| path.file_stem());
        stem.map_or(String::new(), |stem| stem.to_string_lossy().into_owned())
    }

    /// The whole text; the error is a message.
    pub fn text(&self) -> Result<Vec<u8>, String> {
        let bytes = match &self.0 {
            Some(path) => read_file(path),
            None => read_standard_input(),
        };
        bytes.map_err(|error| error.to_string())
    }
}

fn read_file(path: &Path) -> io::Result<Vec<u8>> {
    fs::read(path)
}

fn read_standard_input() -> io::Result<Vec<u8>> {
    let mut bytes = Vec::new();
    io::stdin().lock().read_to_end(&mut bytes)?;
    Ok(bytes)
}
