//! The static filter on one module.

use text::Filter;

use crate::rules::{ReadingFault, Rules};

/// Tags contain the mask; size within both module limits, inclusive; share count at least the
/// minimum.
pub fn passes(filter: &Filter, rules: Rules) -> bool {
    let size = filter.size as f64;
    tags_pass(filter.tags, filter.mask, rules)
        && filter.min_module_size.is_none_or(|limit| limit <= size)
        && filter.max_module_size.is_none_or(|limit| size <= limit)
        && filter.min_share_count.is_none_or(|least| least <= filter.share_count)
}

/// Whether tags contain the mask.
fn tags_pass(tags: u64, mask: u64, rules: Rules) -> bool {
    let any = rules.has(ReadingFault::AnyTag) && tags & mask != 0;
    let none = rules.has(ReadingFault::EmptyMaskPassesNone) && mask == 0;
    !none && (any || tags & mask == mask)
}
