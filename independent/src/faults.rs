//! Deliberately wrong readings of document 01, to show that the inputs can tell such builds apart.

use crate::generate;
use crate::limits::{Limits, LIMITS};
use crate::program::transcript;
use crate::workers;
use std::ops::Range;

macro_rules! faults {
    ($($fault:ident: $reading:literal,)*) => {
        #[derive(Clone, Copy, Debug, PartialEq, Eq)]
        pub enum Fault { $($fault),* }

        /// Every fault with what it reads wrongly.
        pub const FAULTS: &[(Fault, &str)] = &[$((Fault::$fault, $reading)),*];
    };
}

faults! {
    NoWayBack: "the last positions do not lead back to the first",
    KeepsOneMatch: "only one matching position is kept",
    FrontOnly: "only the front of the list is tested at a finish",
    FreeBeforeHandingOn: "the line is set free before handing on",
    StarNotSkipped: "the successors of a starred part are left out when it is skipped",
    StarOnlyOnce: "a starred part comes once at most",
    ExaminedFromZero: "examined is the granted place without the 1",
    ExaminedIsCount: "examined is the whole count even with a grant",
    ExaminedOneMore: "examined is one more than the count without a grant",
    DelayedCountsItself: "delayed counts the new entry too",
    PlaceFromOne: "the withdrawn place counts from 1",
    AskQueuesBehind: "an ask on a free line is delayed whenever others wait",
    NewestFirst: "the longest waiting is served last",
    WithdrawLeavesEntry: "a withdrawn entry stays in the list",
    TextLess: "a text of 4,096 bytes is refused",
    TextMore: "a text of 4,097 bytes is accepted",
    NameLess: "a name of 16 bytes is refused",
    NameMore: "a name of 17 bytes is accepted",
    OpenLess: "16 open parentheses are refused",
    OpenMore: "17 open parentheses are accepted",
    PositionsLess: "64 positions are refused",
    PositionsMore: "65 positions are accepted",
    NamesLess: "32 distinct names are refused",
    NamesMore: "33 distinct names are accepted",
    TerminalLess: "terminal 63 is refused",
    TerminalMore: "terminal 64 is accepted",
    InputLess: "an input of 65,536 bytes is refused",
    InputMore: "an input of 65,537 bytes is accepted",
    FourAtLastToken: "a text that stops short is refused at the end of its last token",
    SixBeforeFour: "refusal 6 comes before 4 on one token",
    SevenBeforeFour: "refusal 7 comes before 4 on one token",
    SevenBeforeSix: "refusal 7 comes before 6 on one token",
    FourAfterEnd: "after the end refusal 4 comes before 2 and 3",
    KeywordsInAnyCase: "keywords in any case are keywords",
    DigitStartsName: "a name may start with a digit",
    CrIsNoBlank: "CR is a bad byte in the path text",
    StarTakesSequence: "a star repeats the whole sequence before it",
    Position64Lost: "the 64th position never matches",
    Name32Lost: "the 32nd name is no operation",
    Entry64Lost: "the 64th entry is not kept",
    MarkAlwaysOne: "the mark is always 1",
    ElevenBeforeTen: "refusal 11 comes before 10",
    FourteenBeforeTen: "refusal 14 comes before 10",
    ThirteenAsTwelve: "12 and 13 are not told apart",
    NoLeadingZeros: "leading zeros in T make the line unreadable",
    FourDigits: "T may have four digits",
    TrailingSpace: "a trailing space is accepted",
    SpacesAsOne: "several spaces are taken as one",
    TabIsSpace: "a tab stands for a space",
    EmptyName: "an empty NAME is no such operation",
    CrStripped: "CR is stripped from line ends",
    LastLineNeedsLf: "a last line without LF is left out",
    EmptyLastLine: "an empty line is counted after the last LF",
    GrantedNameMissing: "a finish does not name the granted operation",
}

/// The limits, right ones unless the fault is about them.
pub fn limits(fault: Option<Fault>) -> Limits {
    let mut limits = LIMITS;
    match fault {
        Some(Fault::TextLess) => limits.text -= 1,
        Some(Fault::TextMore) => limits.text += 1,
        Some(Fault::NameLess) => limits.name -= 1,
        Some(Fault::NameMore) => limits.name += 1,
        Some(Fault::OpenLess) => limits.open -= 1,
        Some(Fault::OpenMore) => limits.open += 1,
        Some(Fault::PositionsLess) => limits.positions -= 1,
        Some(Fault::PositionsMore) => limits.positions += 1,
        Some(Fault::NamesLess) => limits.names -= 1,
        Some(Fault::NamesMore) => limits.names += 1,
        Some(Fault::TerminalLess) => limits.terminal -= 1,
        Some(Fault::TerminalMore) => limits.terminal += 1,
        Some(Fault::InputLess) => limits.input -= 1,
        Some(Fault::InputMore) => limits.input += 1,
        _ => {}
    }
    limits
}

/// For each fault: how many of the inputs give another transcript under it.
pub fn noticed(seeds: Range<u64>) -> Vec<usize> {
    let counts = workers::share(seeds, |seed| Ok::<_, ()>(noticed_by(&generate::input(seed))));
    let mut sums = vec![0; FAULTS.len()];
    for flags in counts.expect("no seed fails") {
        sums.iter_mut()
            .zip(flags)
            .for_each(|(sum, flag)| *sum += usize::from(flag));
    }
    sums
}

fn noticed_by(input: &[u8]) -> Vec<bool> {
    let right = transcript(input, None);
    FAULTS
        .iter()
        .map(|&(fault, _)| transcript(input, Some(fault)) != right)
        .collect()
}
