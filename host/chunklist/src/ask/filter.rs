//! Filter on one module.

use gentropi::{FilteredModule, StaticFilter, raw};
use text::{Answer, Filter};

use super::Asked;

/// A yes or no has no room for a pattern, so the call is made twice, once over each.
pub fn ask(filter: &Filter) -> Asked {
    let over = |before: bool| {
        let mut passes = before;
        let number = raw::filter(&limits(filter), module(filter), &mut passes);
        (number, passes)
    };
    let ((number, passes), (again, passes_again)) = (over(false), over(true));
    let same = number == again && (number != 0 || passes == passes_again);
    let differs = (!same).then(|| "the answer differs by what was in its place".to_string());
    if number != 0 {
        let kept = (passes, passes_again) == (false, true);
        let written = (!kept).then(|| "the place was written by a refused call".to_string());
        return Asked::refused(number, [differs, written]);
    }
    Asked::answered(Answer::Filter(passes), [differs])
}

/// The limits in force.
fn limits(filter: &Filter) -> StaticFilter {
    StaticFilter {
        mask: filter.mask,
        min_module_size: filter.min_module_size,
        max_module_size: filter.max_module_size,
        min_share_count: filter.min_share_count,
    }
}

/// The module that is looked at.
fn module(filter: &Filter) -> FilteredModule {
    FilteredModule { tags: filter.tags, size: filter.size, share_count: filter.share_count }
}
