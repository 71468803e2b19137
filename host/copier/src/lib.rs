//! Finds the crate's text and writes, at build time, the modules that hold copies of it.
//!
//! No copy is kept in the repository: build scripts write them into cargo's build folder.
#![forbid(unsafe_code)]

use std::{
    env, fs,
    path::{Path, PathBuf},
    process::exit,
};

/// The variable that names the folder which holds the crate's `src`.
pub const VARIABLE: &str = "ROLLDOWN_SRC";

/// Manual code splitting, below that folder.
pub const SPLITTING: &str = "src/stages/generate_stage/manual_code_splitting.rs";

/// One change: a text that stands exactly once, and what takes its place.
pub struct Edit {
    /// What is replaced, in a word.
    pub name: &'static str,
    pub replaced: &'static str,
    pub with: &'static str,
}

impl Edit {
    /// The text with this edit, which must fit in exactly one place.
    pub fn apply(&self, text: &str) -> Result<String, String> {
        match text.matches(self.replaced).count() {
            1 => Ok(text.replacen(self.replaced, self.with, 1)),
            count => Err(format!(
                "{}: the text to be replaced stands {count} times in the crate's text, not once: {}",
                self.name, self.replaced
            )),
        }
    }
}

/// The probe: reports the size of a group that becomes a chunk.
pub const PROBE: Edit = Edit {
    name: "probe",
    replaced: "let chunk_idx = self.chunk_graph.add_chunk(chunk);",
    with: "let chunk_idx = self.chunk_graph.add_chunk(chunk); crate::probe::report(group.sizes);",
};

/// Runs a build script's work; a message of its own becomes cargo's error.
pub fn build_script(work: impl FnOnce(&Folders) -> Result<(), String>) {
    println!("cargo::rerun-if-env-changed={VARIABLE}");
    if let Err(message) = Folders::find().and_then(|folders| work(&folders)) {
        println!("cargo::error={message}");
        exit(1);
    }
}

/// Where things lie while a build script runs.
pub struct Folders {
    /// The folder that holds the crate's `src`.
    text: PathBuf,
    /// Where generated files go.
    out: PathBuf,
    /// The judge's own sources.
    judge: PathBuf,
}

impl Folders {
    fn find() -> Result<Self, String> {
        let text = env::var_os(VARIABLE).ok_or(format!(
            "{VARIABLE} isn't set: set it to the folder of rolldown 1.2.16 that holds `src`, since \
             the crate's own text is compiled from there"
        ))?;
        let here = PathBuf::from(cargo_variable("CARGO_MANIFEST_DIR")?);
        Ok(Self {
            text: PathBuf::from(text),
            out: PathBuf::from(cargo_variable("OUT_DIR")?),
            judge: here.join("../judge/src"),
        })
    }

    /// One file of the crate, which has to be there.
    pub fn crate_file(&self, below: &str) -> Result<PathBuf, String> {
        let path = self.text.join(below);
        println!("cargo::rerun-if-changed={}", path.display());
        path.canonicalize().map_err(|error| {
            format!(
                "{VARIABLE} has to name, by an absolute path, the folder of rolldown 1.2.16 that \
                 holds `src`: {}: {error}",
                path.display()
            )
        })
    }

    /// The text of manual code splitting.
    pub fn splitting_text(&self) -> Result<String, String> {
        let path = self.crate_file(SPLITTING)?;
        fs::read_to_string(&path).map_err(|error| format!("{}: {error}", path.display()))
    }

    /// Writes a generated file.
    pub fn write(&self, name: &str, content: &str) -> Result<(), String> {
        fs::write(self.out.join(name), content).map_err(|error| format!("{name}: {error}"))
    }

    /// Writes a file with a module whose text is one file of the crate, unchanged.
    pub fn write_module(&self, name: &str, below: &str) -> Result<(), String> {
        let path = self.crate_file(below)?;
        let module = format!("#[allow(warnings)]\n#[path = {path:?}]\npub mod {name};\n");
        self.write(&format!("{name}.rs"), &module)
    }

    /// Writes a copy of manual code splitting, to be unchanged or a changed text, with the child
    /// module that reaches its private functions. Hands back the module that holds the copy.
    pub fn write_copy(&self, name: &str, text: &str) -> Result<String, String> {
        let reach = self.judge.join("reach.rs");
        let file = format!("text_{name}.rs");
        self.write(&file, &format!("{text}\n#[path = {reach:?}]\npub mod reach;\n"))?;
        Ok(copy_module(name, &self.out.join(file), &self.judge.join("stage.rs")))
    }

    /// The text that stands for manual code splitting unchanged: it is included where it lies.
    pub fn unchanged(&self) -> Result<String, String> {
        Ok(format!("include!({:?});\n", self.crate_file(SPLITTING)?))
    }
}

/// A variable that cargo sets for build scripts.
fn cargo_variable(name: &str) -> Result<String, String> {
    env::var(name).map_err(|error| format!("{name}: {error}"))
}

/// A module with what the text finds in its parent module, and the text.
fn copy_module(name: &str, text: &Path, stage: &Path) -> String {
    format!(
        "#[allow(warnings)]\npub mod {name} {{\n    \
         #[path = {stage:?}]\n    mod stage;\n    pub use stage::GenerateStage;\n    \
         pub use crate::stages::generate_stage::{{chunk_ext, code_splitting}};\n    \
         #[path = {text:?}]\n    pub mod manual_code_splitting;\n    \
         pub use manual_code_splitting::reach::TEXT;\n}}\n"
    )
}
