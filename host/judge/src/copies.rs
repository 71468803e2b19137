//! The copies of the crate's text: unchanged, and with the probe.

include!(concat!(env!("OUT_DIR"), "/copies.rs"));
