//! Whether a matched module passes a group's static limits.

use crate::{Refusal, raw};

/// The limits in force for a group. The default asks nothing.
#[derive(Debug, Clone, Copy, PartialEq, Default)]
pub struct StaticFilter {
    /// The tags that a module must have; 0 asks nothing.
    pub mask: u64,
    /// The least size of a module, inclusive.
    pub min_module_size: Option<f64>,
    /// The largest size of a module, inclusive.
    pub max_module_size: Option<f64>,
    /// The least share count of a module.
    pub min_share_count: Option<u32>,
}

/// What the filter looks at in a module.
#[derive(Debug, Clone, Copy, PartialEq, Eq, Default)]
pub struct FilteredModule {
    /// Its tags.
    pub tags: u64,
    /// Its size.
    pub size: u64,
    /// Its share count.
    pub share_count: u32,
}

/// Whether a module has the tags, lies within both size limits, and reaches the share count.
///
/// # Errors
///
/// Refused with 6 if the size is above 2^53, and with 8 if a given limit is NaN.
///
/// ```
/// use gentropi::{FilteredModule, StaticFilter, filter};
///
/// let module = FilteredModule { size: 10, ..FilteredModule::default() };
/// let small = StaticFilter { max_module_size: Some(10.0), ..StaticFilter::default() };
/// assert_eq!(filter(&small, module), Ok(true));
/// assert_eq!(filter(&StaticFilter { mask: 1, ..small }, module), Ok(false));
/// ```
pub fn filter(filter: &StaticFilter, module: FilteredModule) -> Result<bool, Refusal> {
    let mut passes = false;
    Refusal::check(raw::filter(filter, module, &mut passes))?;
    Ok(passes)
}
