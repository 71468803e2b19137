//! The chunk list as text, by names.

use super::{Shown, ShownModule, shown::counted};

/// Each chunk with its modules, and the modules that are in none.
pub fn list(shown: &Shown) -> String {
    let (bytes, modules) = shown.totals();
    let (chunks, modules) = (counted(shown.chunks.len(), "chunk"), counted(modules, "module"));
    let mut text = format!("{}: {chunks}, {modules}, {bytes} bytes\n", shown.title);
    for chunk in &shown.chunks {
        let entries = shown.entry_names(&chunk.entries);
        let too_large = chunk.too_large.as_ref().map_or(String::new(), |why| format!(", {why}"));
        text.push_str(&format!(
            "\nchunk {}: {}, {} bytes, group {}, entries {entries}{too_large}\n",
            chunk.number, chunk.name, chunk.size, chunk.label
        ));
        chunk.modules.iter().for_each(|module| text.push_str(&line(module)));
    }
    if !shown.left.is_empty() {
        text.push_str(&format!("\nin no chunk: {}\n", counted(shown.left.len(), "module")));
        shown.left.iter().for_each(|module| text.push_str(&line(module)));
    }
    text
}

/// `ID SIZE`, and what else a module is.
fn line(module: &ShownModule) -> String {
    let states: String = module.states.iter().map(|state| format!(", {state}")).collect();
    format!("  {} {}{states}\n", module.id, module.size)
}
