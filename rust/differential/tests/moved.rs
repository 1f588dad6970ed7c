//! The order of the page doesn't matter: a table and the same table with its
//! rows moved, each agent's own in their order, have the same word, and the
//! sources that a fill writes for one are the other's, moved and renumbered.

use differential::{Tally, FILLED, VERDICTS};
use second::{CheckAnswer, FillAnswer, State};
use stramashly::Checker;
use tables::{chained, checkable, fillable, hex, hosted_fillable, moved, Random, Size, Table};

/// What must not change.
fn word(answer: &stramashly::CheckAnswer) -> &'static str {
    match answer {
        stramashly::CheckAnswer::RaceFree => "race-free",
        stramashly::CheckAnswer::Race { .. } => "race",
        stramashly::CheckAnswer::Overwritten { .. } => "overwritten",
        stramashly::CheckAnswer::Cycle { .. } => "cycle",
        stramashly::CheckAnswer::Refused { .. } => "refused",
        answer => panic!("{answer}"),
    }
}

/// Where sources are filled in, they stand in the place of the word.
#[derive(Debug, PartialEq, Eq)]
enum Filled {
    Sources(Vec<u16>),
    Word(&'static str),
}

fn filled(checker: &mut Checker, table: &Table) -> Filled {
    match checker.fill(&table.bytes()) {
        stramashly::FillAnswer::Filled(sources) => Filled::Sources(sources.to_vec()),
        stramashly::FillAnswer::None => Filled::Word("none"),
        stramashly::FillAnswer::Race { .. } => Filled::Word("race"),
        stramashly::FillAnswer::Refused { .. } => Filled::Word("refused"),
        answer => panic!("{answer}"),
    }
}

/// Moves a table some times, and compares what the library says of it with
/// what it says of each of them.
fn compare(random: &mut Random, checker: &mut Checker, table: &Table, times: usize) {
    let checked = word(&checker.check(&table.bytes()));
    let sources = filled(checker, table);
    for _ in 0..times {
        let moved = moved(random, table);
        let bytes = moved.table.bytes();
        let words = || format!("{}\n{}", hex(&table.bytes()), hex(&bytes));
        assert_eq!(word(&checker.check(&bytes)), checked, "{}", words());
        let expected = match &sources {
            Filled::Sources(sources) => Filled::Sources(moved.sources(sources)),
            Filled::Word(word) => Filled::Word(word),
        };
        assert_eq!(filled(checker, &moved.table), expected, "{}", words());
    }
}

/// Counts the answers by the second implementation, which the library's are
/// compared with elsewhere.
fn count(state: &mut State, tally: &mut Tally, table: &Table) {
    let bytes = table.bytes();
    let check: CheckAnswer = state.check(&bytes, second::WORK_WORDS, second::CYCLE_NUMBERS);
    let fill: FillAnswer = state.fill(&bytes, second::WORK_WORDS, second::SOURCE_NUMBERS);
    tally.check(&check);
    tally.fill(&fill);
}

fn compare_many(seed: u64, tables: usize, size: Size, times: usize) -> Tally {
    let mut random = Random::new(seed);
    let mut checker = Checker::new();
    let (mut state, mut tally) = (State::new(), Tally::default());
    for round in 0..tables {
        let table = match round % 2 {
            0 => checkable(&mut random, size),
            _ => fillable(&mut random, size),
        };
        compare(&mut random, &mut checker, &table, times);
        count(&mut state, &mut tally, &table);
    }
    tally.assert_one_in(50, VERDICTS.iter().chain(&FILLED));
    tally
}

#[test]
fn small_tables() {
    compare_many(701, 6000, Size::SMALL, 4);
}

#[test]
fn middle_tables() {
    compare_many(702, 600, Size::of(12, 40), 4);
}

#[test]
fn largest_tables() {
    compare_many(703, 50, Size::LARGEST, 2);
}

/// Dependencies go with their rows.
#[test]
fn hosted_tables() {
    let (mut random, mut checker) = (Random::new(907), Checker::new());
    for _ in 0..1500 {
        let table = hosted_fillable(&mut random, Size::of(3, 20));
        compare(&mut random, &mut checker, &table, 1);
    }
}

/// The same with chains on.
#[test]
fn chained_tables() {
    let (mut random, mut checker) = (Random::new(1005), Checker::new().with_chains(true));
    for _ in 0..600 {
        let table = chained(&mut random, Size::of(15, 32));
        compare(&mut random, &mut checker, &table, 1);
    }
}
