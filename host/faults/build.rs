//! Makes a copy of the crate's text for each deliberate fault.

#[allow(dead_code)]
#[path = "src/table.rs"]
mod table;

use copier::{Edit, Folders, PROBE, build_script};
use table::{FAULTS, FaultText};

fn main() {
    println!("cargo::rerun-if-changed=src/table.rs");
    build_script(|folders: &Folders| {
        let probed = PROBE.apply(&folders.splitting_text()?)?;
        let mut copies = String::new();
        for fault in FAULTS {
            let FaultText { name, replaced, with, .. } = *fault;
            let faulty = Edit { name, replaced, with }.apply(&probed)?;
            copies += &folders.write_copy(name, &faulty)?;
        }
        folders.write("copies.rs", &copies)?;
        folders.write("texts.rs", &texts())
    });
}

/// The copies in the order of the table.
fn texts() -> String {
    let texts: String =
        FAULTS.iter().map(|fault| format!("&copies::{}::TEXT, ", fault.name)).collect();
    format!("&[{texts}]")
}
