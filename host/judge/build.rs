//! Takes the crate's files in unchanged, and makes the copy with the probe.

use copier::{Folders, PROBE, build_script};

fn main() {
    build_script(|folders: &Folders| {
        folders.write_module("chunk_ext", "src/stages/generate_stage/chunk_ext.rs")?;
        folders.write_module("chunk_graph", "src/chunk_graph.rs")?;
        folders.write_module("module_id_matcher", "src/utils/module_id_matcher.rs")?;
        let unchanged = folders.write_copy("unchanged", &folders.unchanged()?)?;
        let probed = PROBE.apply(&folders.splitting_text()?)?;
        let probed = folders.write_copy("probed", &probed)?;
        folders.write("copies.rs", &format!("{unchanged}{probed}"))
    });
}
