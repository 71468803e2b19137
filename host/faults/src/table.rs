//! The deliberate faults: in each, one operand or comparison of the crate's text is changed.

/// What a fault changes.
pub struct FaultText {
    /// The call whose answers it spoils, by its word in the text form.
    pub leaf: &'static str,
    /// What is replaced, in a word.
    pub name: &'static str,
    /// The text that is replaced; it stands exactly once.
    pub replaced: &'static str,
    /// The text that is put in its place.
    pub with: &'static str,
}

const fn fault(
    leaf: &'static str,
    name: &'static str,
    replaced: &'static str,
    with: &'static str,
) -> FaultText {
    FaultText { leaf, name, replaced, with }
}

/// All faults, leaves first.
pub const FAULTS: &[FaultText] = &[
    fault("sim", "score_of_equal_bytes", "acc + (10 - (", "acc + (9 - ("),
    fault("sim", "score_above_ten", "acc + (10 - (", "acc + (11 - ("),
    fault("sim", "score_at_least_one", ".abs()).max(0)", ".abs()).max(1)"),
    fault(
        "sim",
        "absolute_difference",
        "(i32::from(*lhs_char) - i32::from(*rhs_char)).abs()",
        "(i32::from(*lhs_char) - i32::from(*rhs_char))",
    ),
    fault("sim", "sum_from_zero", ".fold(0, |acc,", ".fold(1, |acc,"),
    fault("sim", "zip_with_rhs", ".zip(rhs.as_bytes())", ".zip(lhs.as_bytes())"),
    fault("cut", "threshold_9", "THRESHOLD: i32 = 10;", "THRESHOLD: i32 = 9;"),
    fault("cut", "threshold_11", "THRESHOLD: i32 = 10;", "THRESHOLD: i32 = 11;"),
    fault(
        "cut",
        "significant_difference",
        ".abs() > SIMILARITY_SIGNIFICANCE_THRESHOLD",
        ".abs() >= SIMILARITY_SIGNIFICANCE_THRESHOLD",
    ),
    fault(
        "cut",
        "lower_similarity",
        "similarity < best_similarity",
        "similarity > best_similarity",
    ),
    fault("cut", "left_oversized", "from(left_size > max_size)", "from(left_size >= max_size)"),
    fault("cut", "right_oversized", "from(right_size > max_size)", "from(right_size >= max_size)"),
    fault(
        "cut",
        "fewer_oversized_sides",
        "oversized_side_count < best_oversized_side_count",
        "oversized_side_count > best_oversized_side_count",
    ),
    fault(
        "cut",
        "smaller_side",
        "max_side_size < best_max_side_size",
        "max_side_size <= best_max_side_size",
    ),
    fault("cut", "larger_side", "left_size.max(right_size)", "left_size.min(right_size)"),
    fault("cut", "left_minimum", "if left_size < min_size ||", "if left_size <= min_size ||"),
    fault("cut", "right_minimum", "|| right_size < min_size {", "|| right_size <= min_size {"),
    fault(
        "cut",
        "left_bound",
        "prefix_sizes[left_bound] < min_size",
        "prefix_sizes[left_bound] <= min_size",
    ),
    fault(
        "cut",
        "right_bound",
        "prefix_sizes[right_bound] < min_size",
        "prefix_sizes[right_bound] <= min_size",
    ),
    fault("cut", "last_id_on_the_left", "keys[split_index - 1], keys", "keys[0], keys"),
    fault("cut", "last_cut", "in left_bound..=right_bound", "in left_bound..right_bound"),
    fault("capture", "normal", "if !module_table[module_idx].is_normal() {", "if is_visited {"),
    fault("capture", "assigned", "if module_to_assigned.has_bit(module_idx) {", "if is_visited {"),
    fault(
        "capture",
        "included",
        "if !module_metas[module_idx].is_included {\n    return",
        "if is_visited {\n    return",
    ),
    fault("capture", "recursion_off", "  if recursively {", "  if true {"),
    fault(
        "capture",
        "recursion_in_depth",
        "        visited,\n        recursively,",
        "        visited,\n        false,",
    ),
    fault("filter", "min_size", "size() >= min_module_size", "size() > min_module_size"),
    fault("filter", "max_size", "size() <= max_module_size", "size() < max_module_size"),
    fault(
        "filter",
        "either_limit",
        "!is_min_module_size_satisfied || !is_max_module_size_satisfied",
        "!is_min_module_size_satisfied && !is_max_module_size_satisfied",
    ),
    fault(
        "filter",
        "share_count",
        "share_count < allow_min_share_count",
        "share_count <= allow_min_share_count",
    ),
    fault(
        "filter",
        "contains_all_tags",
        "!splitting_info.tags_bit_set.contains_all(required_tags)",
        "!required_tags.contains_all(&splitting_info.tags_bit_set)",
    ),
    fault(
        "merge",
        "size_of_zero",
        "size > 0.0 && size < threshold",
        "size >= 0.0 && size < threshold",
    ),
    fault(
        "merge",
        "below_threshold",
        "size > 0.0 && size < threshold",
        "size > 0.0 && size <= threshold",
    ),
    fault("merge", "both_differences", "lhs_extra + rhs_extra", "lhs_extra"),
    fault("merge", "better_target", "|best| score < best", "|best| score > best"),
    fault(
        "merge",
        "size_of_target",
        "OrderedSize(target_group.sizes),\n        target_key,\n      );",
        "OrderedSize(0.0),\n        target_key,\n      );",
    ),
    fault("merge", "smallest_first", "OrderedSize(group.sizes),", "OrderedSize(-group.sizes),"),
    fault(
        "merge",
        "lowest_number_first",
        "|best| score < best",
        "|best: (usize, _, u32)| (score.0, score.1, best.2) < (best.0, best.1, score.2)",
    ),
    fault(
        "merge",
        "bits_unite",
        "to_group.bits.union(&from_group.bits)",
        "to_group.bits.union(&to_group.bits.clone())",
    ),
    fault(
        "name",
        "longest_name",
        "MAX_CHUNK_NAME_LEN: usize = 100;",
        "MAX_CHUNK_NAME_LEN: usize = 101;",
    ),
    fault(
        "name",
        "name_at_the_limit",
        "full_name.len() > MAX_CHUNK_NAME_LEN",
        "full_name.len() >= MAX_CHUNK_NAME_LEN",
    ),
    fault("name", "cut_at_91", "HASH_DISPLAY_LEN - 1;", "HASH_DISPLAY_LEN;"),
    fault("name", "start_of_a_character", "      truncate_at -= 1;", "      truncate_at += 1;"),
    fault(
        "name",
        "character_search",
        "while !full_name.is_char_boundary(truncate_at)",
        "if !full_name.is_char_boundary(truncate_at)",
    ),
    fault("name", "hash_bytes", "HASH_DISPLAY_LEN: usize = 8;", "HASH_DISPLAY_LEN: usize = 7;"),
    fault("name", "hash_separator", "(truncated, \"~\", &hash", "(truncated, \"-\", &hash"),
    fault("name", "first_separator", "(group_name, \"~\", entry", "(group_name, entry"),
    fault("name", "separators", "entry_names.join(\"~\")", "entry_names.join(\"\")"),
    fault("name", "no_entry_name", "if entry_names.is_empty() {", "if false {"),
    fault(
        "name",
        "ascending_entries",
        "    .index_of_one()\n    .filter_map(|index| {",
        "    .index_of_one()\n    .collect_vec().into_iter().rev()\n    .filter_map(|index| {",
    ),
    fault(
        "name",
        "last_entry",
        "if idx < flattened_entries.len() {",
        "if idx + 1 < flattened_entries.len() {",
    ),
    fault(
        "name",
        "entries_aware_name",
        "let chunk_name = if entries_aware {",
        "let chunk_name = if true {",
    ),
    fault(
        "chunks",
        "min_size_strict",
        "group.sizes < allow_min_size",
        "group.sizes <= allow_min_size",
    ),
    fault(
        "chunks",
        "max_size_strict",
        "group.sizes > allow_max_size",
        "group.sizes >= allow_max_size",
    ),
    fault(
        "chunks",
        "right_piece_first",
        "module_groups.push(left);\n            module_groups.push(right);",
        "module_groups.push(right);\n            module_groups.push(left);",
    ),
    fault(
        "chunks",
        "higher_priority",
        "Reverse((Reverse(item.priority),",
        "Reverse((item.priority,",
    ),
    fault(
        "chunks",
        "lower_group",
        "item.match_group_index, item.name.clone()",
        "Reverse(item.match_group_index), item.name.clone()",
    ),
    fault(
        "chunks",
        "lower_name",
        "item.match_group_index, item.name.clone()",
        "item.match_group_index, Reverse(item.name.clone())",
    ),
    fault(
        "chunks",
        "subgroup_bits",
        "group.entries_aware_bits.as_ref().unwrap_or(first_module_bits)",
        "first_module_bits",
    ),
    fault(
        "chunks",
        "size_of_what_left",
        "self.sizes -= module_table[module_idx].size() as f64;",
        "self.sizes -= 0.0;",
    ),
    fault(
        "chunks",
        "group_min_size_over_global",
        ".min_size\n        .map_or(self.chunking_options.min_size, Some)",
        ".min_size\n        .or(self.chunking_options.min_size).and(self.chunking_options.min_size)",
    ),
    fault(
        "chunks",
        "group_max_size_over_global",
        ".max_size\n        .map_or(self.chunking_options.max_size, Some)",
        ".max_size\n        .or(self.chunking_options.max_size).and(self.chunking_options.max_size)",
    ),
    fault(
        "chunks",
        "group_share_count_over_global",
        "match_group.min_share_count.map_or(self.chunking_options.min_share_count, Some)",
        "self.chunking_options.min_share_count.map_or(match_group.min_share_count, Some)",
    ),
    fault(
        "chunks",
        "recursion_by_default",
        ".or(self.chunking_options.include_dependencies_recursively)\n          .unwrap_or(true)",
        ".or(self.chunking_options.include_dependencies_recursively)\n          .unwrap_or(false)",
    ),
    fault(
        "chunks",
        "numbered_by_execution",
        "self.link_output.module_table[*idx].exec_order()),",
        "std::cmp::Reverse(self.link_output.module_table[*idx].exec_order())),",
    ),
    fault(
        "chunks",
        "cut_by_min_size",
        "(&group, allow_min_size, allow_max_size)",
        "(&group, 0.0, allow_max_size)",
    ),
    fault(
        "chunks",
        "id_order",
        ".cmp(rhs_module.stable_id())",
        ".cmp(rhs_module.stable_id()).reverse()",
    ),
    fault(
        "chunks",
        "lower_module_limit_over_global",
        "match_group.min_module_size.map_or(self.chunking_options.min_module_size, Some)",
        "self.chunking_options.min_module_size.map_or(match_group.min_module_size, Some)",
    ),
];
