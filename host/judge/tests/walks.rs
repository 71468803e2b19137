//! The crate's text under the papers' order of walking, and under another.

use judge::{Judge, Walk};
use text::{Answer, Call, Reply, read_cases};

/// Three entries-aware subgroups of one name; module 2 comes first in execution order.
const BUILD: &str = "\
chunks subgroups 3 1 3 1 0 0
o - - - - - -
m 3 10 1 0 0 1 0 0 0 0 61
m 3 20 2 0 0 2 0 0 0 0 62
m 3 30 0 0 0 4 0 0 0 0 63
g - - - - - - 0 - 1 -
a 2 2 2
end
";

/// Modules 0 and 2 join, so that they hold the smallest id; a group of higher priority takes module 0
/// before, and what is left is cut.
const JOINED: &str = "\
chunks joined 4 2 3 1 0 0
o - - - - - -
m 3 1 1 0 0 1 0 0 0 0 61
m 3 5 0 0 0 4 0 0 0 0 6d
m 3 5 2 0 0 3 0 0 0 0 79
m 3 5 3 0 0 3 0 0 0 0 7a
g - 4014000000000000 - - - - 0 - 1 4008000000000000
g - - - - - - 0 1 - -
a 2 2 2 2
a 2 0 0 0
end
";

/// The crate's answer as text.
fn answer(text: &str, walk: Walk) -> String {
    let case = &read_cases(text).expect("the case can be read")[0];
    let judge = Judge { walk, ..Judge::default() };
    let outcome = Ok(judge.answer(&case.question).expect("the crate can be asked"));
    assert!(matches!(outcome, Ok::<_, u32>(Answer::Chunks(_))));
    Reply { tag: case.tag.clone(), call: Call::Chunks, outcome, warnings: vec![] }.to_string()
}

#[test]
fn the_papers_order_takes_the_smallest_id_first() {
    let expected = "\
chunks subgroups 3
c 0 0 0 4024000000000000 10 1 0 0 0 0 0
c 1 0 0 4034000000000000 20 2 0 0 0 0 1
c 2 0 0 403e000000000000 30 4 0 0 0 0 2
m 1 2 3
end
";
    assert_eq!(answer(BUILD, Walk::Document), expected);
}

#[test]
fn the_smallest_id_is_that_of_the_finished_subgroup() {
    let expected = "\
chunks joined 4
c 0 1 0 3ff0000000000000 1 1 0 0 0 0 0
c 1 0 0 4014000000000000 5 3 0 0 0 0 3
c 2 0 0 4014000000000000 5 3 0 0 0 0 2
c 3 0 0 4014000000000000 5 4 0 0 0 0 1
m 1 4 3 2
end
";
    assert_eq!(answer(JOINED, Walk::Document), expected);
}

#[test]
fn numbers_of_chunks_follow_the_order_of_walking() {
    let expected = "\
chunks subgroups 3
c 0 0 0 403e000000000000 30 4 0 0 0 0 2
c 1 0 0 4034000000000000 20 2 0 0 0 0 1
c 2 0 0 4024000000000000 10 1 0 0 0 0 0
m 3 2 1
end
";
    assert_eq!(answer(BUILD, Walk::Ascending), expected);
}
