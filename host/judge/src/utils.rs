//! The modules that the crate's text expects below `utils`.

// `module_id_matcher`, the crate's own file.
include!(concat!(env!("OUT_DIR"), "/module_id_matcher.rs"));
