//! The modules that the crate's text expects below `stages`.

pub mod generate_stage;
pub mod link_stage;
