//! What a run says at its end.

use std::time::Duration;

use text::Call;

use crate::{
    fault_runs::{Count, Verdict},
    reading_faults::Fared,
    run::{LargeTally, LibraryTally, NameTally, PairTally, ReasonTally, Run, Tally},
    slowest::{self, Slow, Took},
    stack::{Deepest, Depths},
};

/// Prints a run; true if it is as it should be.
pub fn run(run: &Run) -> bool {
    for (call, tally) in &run.tallies {
        println!(
            "{}: {} figures, {} short, {} random, {} largest, {} damaged; {:.1} s",
            call.word(),
            tally.figures,
            tally.exhaustive,
            tally.random,
            tally.largest,
            tally.refused.iter().sum::<u64>(),
            tally.seconds.as_secs_f64()
        );
        print_refusals(&tally.refused);
        print_library(&tally.library);
        print_large(&tally.large);
        print_pairs(&tally.pairs);
        print_names(&tally.names);
        print_reasons(&tally.reasons);
        for (kind, count) in run.counts.of(*call) {
            println!("  {count:>9}  {kind}");
        }
    }
    print_builds(run);
    let missing = run.counts.missing();
    for (call, kind) in &missing {
        println!("no case of {}: {kind}", call.word());
    }
    println!("{} with ids that aren't UTF-8, which the crate can't be asked", run.not_text);
    println!("{} with an entry whose empty name the crate would show", run.empty_names);
    print_table(&run.tallies);
    println!("{} disagreements", run.disagreements);
    run.disagreements == 0 && missing.is_empty()
}

/// The counts of all calls, one line each.
fn print_table(tallies: &[(Call, Tally)]) {
    println!();
    println!(
        "| call | figures | short | random | largest | damaged | renumbered | library answered | library refused | seconds |"
    );
    println!("|---|---|---|---|---|---|---|---|---|---|");
    for (call, tally) in tallies {
        let damaged: u64 = tally.refused.iter().sum();
        let LibraryTally { answered, refused, .. } = tally.library;
        let counts = [tally.figures, tally.exhaustive, tally.random, tally.largest, damaged];
        let counts = [counts.as_slice(), &[tally.pairs.pairs, answered, refused]].concat();
        let counts: Vec<String> = counts.into_iter().map(with_commas).collect();
        let seconds = tally.seconds.as_secs_f64();
        println!("| {} | {} | {seconds:.1} |", call.word(), counts.join(" | "));
    }
    println!();
}

/// A count as people write it.
fn with_commas(count: u64) -> String {
    let digits = count.to_string();
    let parts: Vec<&[u8]> = digits.as_bytes().rchunks(3).rev().collect();
    String::from_utf8_lossy(&parts.join(&b',')).into_owned()
}

/// How many damaged questions each number refused.
fn print_refusals(refused: &[u64; 17]) {
    let counts = refused.iter().enumerate().filter(|(_, count)| **count > 0);
    let counts: Vec<String> = counts.map(|(number, count)| format!("{number}: {count}")).collect();
    println!("  refused by number: {}", counts.join(", "));
}

/// What was put to the library.
fn print_library(tally: &LibraryTally) {
    let LibraryTally { answered, refused, wrote } = tally;
    println!("  library: {answered} answered, {refused} refused, {wrote} wrote elsewhere");
}

/// Random builds of 4,096 modules and 65,535 records.
fn print_large(tally: &LargeTally) {
    let LargeTally { builds, damaged, most_pairs, many_pairs, seconds } = tally;
    if *builds > 0 {
        print!(
            "  of 4,096 modules and 65,535 records: {builds} random, {damaged} damaged, P up to "
        );
        println!("{most_pairs}, above 65535 in {many_pairs}; {:.1} s", seconds.as_secs_f64());
    }
}

/// Pairs of builds that are alike but for load numbers.
fn print_pairs(tally: &PairTally) {
    let PairTally { pairs, chunks, chains, marked, records, differ } = tally;
    if *pairs > 0 {
        print!("  renumbered: {pairs} pairs, {chunks} with a new chunk, {chains} with several ");
        print!("modules in one, {marked} with one above its maximum, ");
        println!("{records} with another count of records; {differ} differ");
    }
}

/// Names of new chunks.
fn print_names(tally: &NameTally) {
    let NameTally { chunks, aware, cut } = tally;
    if *chunks > 0 {
        println!("  named: {chunks} chunks, {aware} of entries-aware groups, {cut} names cut");
    }
}

/// Marks of chunks, and cuts without an answer.
fn print_reasons(tally: &ReasonTally) {
    let ReasonTally { marks: [within, one_module, no_cut], fewer, not_allowed } = tally;
    if within + one_module + no_cut > 0 {
        println!("  marks: {within} chunks of 0, {one_module} of 1, {no_cut} of 2");
    }
    if fewer + not_allowed > 0 {
        println!("  no cut: {fewer} fewer than two modules, {not_allowed} none allowed");
    }
}

/// How the builds compared under other walks.
fn print_builds(run: &Run) {
    let [same, reordered] = run.walks;
    println!(
        "{} under another walk: {same} the same, {reordered} with subgroups in another order",
        Call::Chunks.word()
    );
}

/// Prints how the faults fared; true if every one was noticed.
pub fn faults(verdicts: &[Verdict]) -> bool {
    for verdict in verdicts {
        let fault = verdict.fault.change;
        println!("{} {}: {}", fault.leaf, fault.name, one_line(fault.replaced));
        println!("    becomes {}", one_line(fault.with));
        if verdict.leaves.asked > 0 {
            print_count(&verdict.leaves, "calls");
        }
        print_count(&verdict.builds, "builds");
    }
    let unnoticed: Vec<&Verdict> = verdicts.iter().filter(|verdict| !is_noticed(verdict)).collect();
    for verdict in &unnoticed {
        println!("not noticed: {} {}", verdict.fault.change.leaf, verdict.fault.change.name);
    }
    println!("{} of {} faults noticed", verdicts.len() - unnoticed.len(), verdicts.len());
    unnoticed.is_empty()
}

/// Prints how the reading's faults fared; true if the recorded cases notice every one.
pub fn reading_faults(all: &[Fared]) -> bool {
    for fared in all {
        let Fared { fault, builds, cuts, refusals, random } = fared;
        print!("{fault:?}: {} recorded ", fared.recorded());
        print!("({builds} builds, {cuts} cuts, {refusals} refusals)");
        println!("{}", random.map_or(String::new(), |random| format!(", {random} random")));
    }
    let unnoticed: Vec<&Fared> = all.iter().filter(|one| one.recorded() == 0).collect();
    for one in &unnoticed {
        println!("not noticed: {:?}", one.fault);
    }
    println!("{} of {} faults of the reading noticed", all.len() - unnoticed.len(), all.len());
    unnoticed.is_empty()
}

/// Prints how much stack a call takes.
pub fn stack(depths: &Depths) {
    let part = |deepest: &Deepest, kind: &str| {
        let (kilobytes, what) = (deepest.bytes.div_ceil(1_024), &deepest.what);
        format!("at most {kilobytes} KB in {} {kind} calls ({what})", deepest.calls)
    };
    let (accepted, refused) =
        (part(&depths.accepted, "accepted"), part(&depths.refused, "refused"));
    println!("stack: {accepted}, {refused}");
}

/// Times the slow builds one after another and prints them.
pub fn slowest(builds: Vec<Slow>) {
    println!("processor seconds, wall seconds, sets, build");
    for (name, sets, build) in builds {
        match slowest::timed(build) {
            Ok(Took { wall, processor }) => {
                let processor = processor.map_or("-".into(), |time| seconds(time));
                println!("{processor:>10}{:>10}{sets:>8}  {name}", seconds(wall));
            }
            Err(number) => println!("refused with {number}: {name}"),
        }
    }
}

fn seconds(time: Duration) -> String {
    format!("{:.3}", time.as_secs_f64())
}

/// How many questions notice a fault.
fn print_count(count: &Count, what: &str) {
    let Count { asked, noticed, library } = count;
    println!("    noticed in {noticed} of {asked} {what}, against the library in {library}");
}

/// A leaf's fault has to be noticed by the leaf's own questions, others by whole builds, and both
/// against the library too.
fn is_noticed(verdict: &Verdict) -> bool {
    let leaf = verdict.leaves.asked > 0;
    let count = if leaf { &verdict.leaves } else { &verdict.builds };
    count.noticed > 0 && count.library > 0
}

/// A text of the crate on one line.
fn one_line(text: &str) -> String {
    text.split_whitespace().collect::<Vec<_>>().join(" ")
}
