//! The list of the reading's faults.

use text::{Count, Table};

use crate::rules::{Area, Lengths, Level, Marking, ReadingFault as F, Setting, Telling, Tie, Use};

/// The limits among the options, and the options that are global ones too.
const LIMITS: [Setting; 4] =
    [Setting::MinSize, Setting::MaxSize, Setting::MinModuleSize, Setting::MaxModuleSize];
const SHARED: [Setting; 6] = [
    Setting::MinSize,
    Setting::MaxSize,
    Setting::MinModuleSize,
    Setting::MaxModuleSize,
    Setting::MinShareCount,
    Setting::Recursive,
];

/// All faults, in the order of the conditions and then of the steps.
pub fn all() -> Vec<F> {
    let mut all = conditions();
    all.extend((1..13).flat_map(|lower| [F::NumbersExchanged(lower), F::OrderExchanged(lower)]));
    all.push(F::AnswersByModule);
    all.extend(settings());
    all.extend([F::AnyTag, F::EmptyMaskPassesNone]);
    for purpose in [Use::Equality, Use::Joined, Use::Distance, Use::Union] {
        all.extend((1..4).map(|word| F::WordIgnored(purpose, word)));
    }
    all.extend(Tie::ALL.map(F::SubgroupsBy));
    all.extend([F::PiecesById, F::PiecesLast]);
    all.extend([F::CutBeforeDropped, F::AtMinSizeDropped, F::AtMaxSizeCut]);
    all.extend(Marking::ALL.map(F::Marks));
    all.extend(Telling::ALL.map(F::Nones));
    let written = Area::ALL.into_iter().filter(|area| *area != Area::Scratch);
    all.extend(written.map(F::PastEnd));
    all.extend([F::RecordsByNumber, F::ScratchKept]);
    all.extend(Area::ALL.map(F::RefusedWrites));
    all
}

/// Faults of the two tables of refusals.
fn conditions() -> Vec<F> {
    let mut all = Vec::new();
    for (count, _) in Count::ALL {
        all.extend([F::LimitHigher(count), F::LimitLower(count)]);
    }
    for (table, _) in Table::ALL {
        let ways = [Lengths::Any, Lengths::Shorter, Lengths::Longer];
        all.extend(ways.map(|way| F::Length(table, way)));
    }
    all.extend([F::IdLonger, F::IdShorter, F::OffsetFalls, F::OffsetPastEnd]);
    all.extend([F::OffsetsFromZero, F::OffsetsToEnd]);
    all.extend((4..7).flat_map(|number| [F::PartEligible(number), F::PartAll(number)]));
    all.extend([F::TotalHigher, F::TotalLower, F::FirstUntested, F::NextUntested]);
    all.extend([F::RecordModuleUntested, F::RecordModuleAtLimit, F::RecordZeroTested]);
    all.extend([F::OffChainUntested, F::FirstIfEligible]);
    all.extend([F::ChainUntested, F::ChainIfEligible, F::ChainLower]);
    for level in [Level::Global, Level::Group] {
        all.extend(LIMITS.map(|setting| F::NanUntested(level, setting)));
        all.extend(LIMITS.map(|setting| F::NanAbsent(level, setting)));
    }
    all.push(F::NanUntested(Level::Group, Setting::Threshold));
    all.push(F::NanAbsent(Level::Group, Setting::Threshold));
    all.extend([F::NanThresholdIfAware, F::NanNotInLastGroup, F::NanOnlyInLastGroup]);
    all.extend([F::FlagsUntested, F::FlagsEightAccepted, F::FlagsSevenRefused, F::BitAtLimit]);
    all.extend((1..4).flat_map(|word| [F::BitsUntested(word), F::BitAtWord(word)]));
    all.extend([F::AnswerHigher, F::AnswerLower, F::AnswersOfFirstGroup, F::AnswersOfLastGroup]);
    all.extend([F::EntryCountHigher, F::EntryCountLower]);
    all.extend([F::ShortChunkOf, F::ShortNextOf, F::ShortRecords, F::ShortMarkOf, F::ShortScratch]);
    all.extend([F::PairsEligible, F::PairsUnnamed, F::PairsFiltered]);
    all.extend([F::PairsByName, F::PairsRepeated, F::Words31, F::Words33]);
    all
}

/// Faults of how settings are read.
fn settings() -> Vec<F> {
    let mut all = Vec::new();
    for wanted in LIMITS {
        for read in LIMITS.into_iter().filter(|read| *read != wanted) {
            all.push(F::WrongSlot(Level::Global, wanted, read));
            all.push(F::WrongSlot(Level::Group, wanted, read));
        }
        all.push(F::WrongSlot(Level::Group, wanted, Setting::Threshold));
        all.push(F::WrongSlot(Level::Group, Setting::Threshold, wanted));
    }
    for (one, other) in
        [(Setting::Priority, Setting::MinShareCount), (Setting::EntriesAware, Setting::Recursive)]
    {
        all.push(F::WrongSlot(Level::Group, one, other));
        all.push(F::WrongSlot(Level::Group, other, one));
    }
    all.extend(SHARED.map(|setting| F::Ignored(Level::Global, setting)));
    all.extend(SHARED.map(|setting| F::Ignored(Level::Group, setting)));
    all.extend(SHARED.map(F::GlobalFirst));
    let own = [Setting::Threshold, Setting::Priority, Setting::EntriesAware];
    all.extend(own.map(|setting| F::Ignored(Level::Group, setting)));
    all.push(F::Ignored(Level::Group, Setting::Mask));
    all.extend(SHARED.into_iter().chain(own).map(F::Default));
    all
}
