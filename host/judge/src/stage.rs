//! Stand-in for the crate's `GenerateStage`, of which manual code splitting reads three fields.
//! It is compiled once for each copy of the text, since each copy adds a method to it.

use rolldown_plugin::SharedPluginDriver;

use crate::{SharedOptions, stages::link_stage::LinkStageOutput};

/// The stage that manual code splitting belongs to.
pub struct GenerateStage<'a> {
    pub link_output: &'a LinkStageOutput,
    pub options: &'a SharedOptions,
    pub plugin_driver: &'a SharedPluginDriver,
}
