//! Groups with their callbacks, which look their answers up in the build's table.

use std::{future::ready, sync::Arc};

use rolldown_common::{MatchGroup, MatchGroupName, MatchGroupTest, TestRegex, tag_name};
use text::{Build, Group};

use crate::{Callbacks, probe::callback};

/// How wide the name of a group is in bytes.
pub const NAME_WIDTH: usize = 6;

/// The text of a name; texts of one width ascend as their numbers do.
pub fn name_text(name: u32) -> String {
    format!("n{name:05}")
}

/// The number of a name, from a text that begins with it.
pub fn name_number(text: &str) -> Option<u32> {
    text.get(1..NAME_WIDTH)?.parse().ok()
}

/// The groups of a build.
pub fn match_groups(build: &Build, callbacks: Callbacks) -> Vec<MatchGroup> {
    let groups = build.groups.iter().zip(&build.answers);
    groups.map(|(group, answers)| match_group(build, group, answers, callbacks)).collect()
}

fn match_group(build: &Build, group: &Group, answers: &[u32], callbacks: Callbacks) -> MatchGroup {
    let asked = asked(build, answers);
    let answers: Arc<[u32]> = answers.into();
    MatchGroup {
        name: name_of(&asked, &answers, callbacks),
        test: test_of(&asked, &answers, callbacks),
        ..with_options(group)
    }
}

/// A group with the options alone: it matches every module and names it `n00000`.
pub fn with_options(group: &Group) -> MatchGroup {
    let options = &group.options;
    MatchGroup {
        name: MatchGroupName::Static(name_text(0)),
        test: None,
        tags: tags(group.mask),
        priority: group.priority,
        min_size: options.min_size,
        max_size: options.max_size,
        min_module_size: options.min_module_size,
        max_module_size: options.max_module_size,
        min_share_count: options.min_share_count,
        include_dependencies_recursively: options.recursive,
        entries_aware: group.entries_aware,
        entries_aware_merge_threshold: group.threshold,
    }
}

/// The tags of a mask; a mask of zero asks nothing.
fn tags(mask: u64) -> Option<Vec<String>> {
    let tags = (0..64).filter(|tag| mask >> tag & 1 == 1).map(tag_name).collect();
    if mask == 0 { None } else { Some(tags) }
}

/// The answers for the modules that a callback can be asked about: the eligible ones.
fn asked(build: &Build, answers: &[u32]) -> Vec<u32> {
    let eligible = build.modules.iter().zip(answers).filter(|(module, _)| module.flags & 7 == 3);
    eligible.map(|(_, answer)| *answer).collect()
}

/// The test: a function, or, where it can be, nothing or a pattern.
fn test_of(asked: &[u32], answers: &Arc<[u32]>, callbacks: Callbacks) -> Option<MatchGroupTest> {
    let answers = Arc::clone(answers);
    let matches = move |id: &str| answers[module_number(id)] != 0;
    match callbacks {
        Callbacks::Plainest if asked.iter().all(|answer| *answer != 0) => None,
        Callbacks::Plainest => Some(MatchGroupTest::Regex(TestRegex(Box::new(matches)))),
        Callbacks::Functions => {
            Some(MatchGroupTest::Function(Arc::new(move |ids: Vec<String>| {
                callback(|| ready(Ok(ids.iter().map(|id| matches(id)).collect())))
            })))
        }
    }
}

/// The name: a function, or, where all matched modules have the same one, that name.
fn name_of(asked: &[u32], answers: &Arc<[u32]>, callbacks: Callbacks) -> MatchGroupName {
    let mut matched = asked.iter().filter(|answer| **answer != 0);
    if let (Callbacks::Plainest, Some(first)) = (callbacks, matched.next())
        && *first >= 2
        && matched.all(|answer| answer == first)
    {
        return MatchGroupName::Static(name_text(first - 2));
    }
    let answers = Arc::clone(answers);
    MatchGroupName::Dynamic(Arc::new(move |ids: Vec<String>| {
        let name = |id: &String| answers[module_number(id)].checked_sub(2).map(name_text);
        callback(|| ready(Ok(ids.iter().map(name).collect())))
    }))
}

/// The number of a module, from the id that callbacks are asked about.
fn module_number(id: &str) -> usize {
    id.parse().expect("an id is a module number")
}
