//! The tables of groups, each with a length of its own.

use gentropi::GroupBuf;
use text::{Damage, Table};

/// These tables with the lengths that the damage forces on them.
pub fn fitted(mut groups: GroupBuf, damage: &Damage) -> GroupBuf {
    damage.fit(Table::Given, &mut groups.given);
    damage.fit(Table::MinSize, &mut groups.min_size);
    damage.fit(Table::MaxSize, &mut groups.max_size);
    damage.fit(Table::MinModuleSize, &mut groups.min_module_size);
    damage.fit(Table::MaxModuleSize, &mut groups.max_module_size);
    damage.fit(Table::MinShareCount, &mut groups.min_share_count);
    damage.fit(Table::Mask, &mut groups.tags);
    damage.fit(Table::Priority, &mut groups.priority);
    damage.fit(Table::Threshold, &mut groups.threshold);
    groups
}
