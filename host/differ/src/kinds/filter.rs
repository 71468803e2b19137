//! Kinds of question for Filter.

use text::Filter;

use super::Kinds;

pub fn kinds(filter: &Filter, passes: bool) -> Kinds {
    let size = filter.size as f64;
    let missing = (filter.mask & !filter.tags).count_ones();
    let at = |limit: Option<f64>| limit == Some(size);
    let above = |limit: Option<f64>| limit.is_some_and(|limit| limit > size && limit <= size + 1.0);
    let below = |limit: Option<f64>| limit.is_some_and(|limit| limit < size && limit >= size - 1.0);
    let least =
        |share: Option<u32>| filter.min_share_count.is_some() && filter.min_share_count == share;
    vec![
        ("passes", passes),
        ("fails", !passes),
        ("a mask of zero", filter.mask == 0),
        ("tags that are the mask", filter.mask != 0 && filter.mask == filter.tags),
        ("tags that lack one bit of the mask", missing == 1),
        ("bit 63 in the mask", filter.mask >> 63 == 1),
        ("no minimum", filter.min_module_size.is_none()),
        ("no maximum", filter.max_module_size.is_none()),
        ("size at the minimum", at(filter.min_module_size)),
        ("size right below the minimum", above(filter.min_module_size)),
        ("size at the maximum", at(filter.max_module_size)),
        ("size right above the maximum", below(filter.max_module_size)),
        (
            "an infinite limit",
            [filter.min_module_size, filter.max_module_size]
                .iter()
                .any(|limit| limit.is_some_and(f64::is_infinite)),
        ),
        ("share count at the minimum", least(Some(filter.share_count))),
        ("share count one below the minimum", least(filter.share_count.checked_add(1))),
        ("share count of 2^32 - 1", filter.share_count == u32::MAX),
        ("size 0", filter.size == 0),
        ("size 2^53", filter.size == 1 << 53),
        ("only the minimum fails", missing == 0 && above(filter.min_module_size) && !passes),
    ]
}
