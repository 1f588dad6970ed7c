//! Tables whose data goes by chains, answered by both with the switch off and on.

use differential::{Comparison, Tally, FILLED, VERDICTS};
use second::{Chains, CheckAnswer};
use tables::{chained, chained_fillable, checkable, hosted, Random, Size};

const SMALL: Size = Size::of(6, 14);
const MIDDLE: Size = Size::of(15, 32);

/// Compares generated tables under both settings; gives what was answered with
/// chains on, and how often only chains kept a table from racing.
fn compare(seed: u64, count: usize, size: Size) -> (Tally, usize) {
    let mut random = Random::new(seed);
    let mut comparison = Comparison::new(seed);
    let mut tally = Tally::default();
    let mut saved = 0;
    for _ in 0..count {
        let bytes = chained(&mut random, size).bytes();
        let off = comparison.check(&bytes).unwrap();
        let on = comparison.check_with(Chains::On, &bytes).unwrap();
        tally.check(&on);
        let is_race = matches!(off, CheckAnswer::Race { .. });
        saved += usize::from(is_race && on == CheckAnswer::RaceFree);
        let bytes = chained_fillable(&mut random, size).bytes();
        comparison.fill(&bytes).unwrap();
        tally.fill(&comparison.fill_with(Chains::On, &bytes).unwrap());
        comparison.report(&bytes).unwrap();
        comparison.report_with(Chains::On, &bytes).unwrap();
    }
    assert_eq!(tally.of("fill not compared"), 0);
    (tally, saved)
}

#[test]
fn small_tables() {
    let (tally, _) = compare(1001, 2500, SMALL);
    tally.assert_one_in(50, VERDICTS.iter().chain(&FILLED));
}

#[test]
fn middle_tables() {
    let (tally, saved) = compare(1002, 800, MIDDLE);
    tally.assert_one_in(50, VERDICTS.iter().chain(&FILLED));
    assert!(saved > 80, "{saved}");
}

#[test]
fn largest_tables() {
    let (tally, _) = compare(1003, 20, Size::LARGEST);
    assert!(tally.of("check race") > 0 && tally.of("fill race") > 0);
}

/// Tables made for other purposes, with chains on.
#[test]
fn other_tables() {
    let mut random = Random::new(1004);
    let mut comparison = Comparison::new(1004);
    let mut tally = Tally::default();
    for round in 0..1500 {
        let size = Size::of(4, 20);
        let bytes = match round % 3 {
            0 => hosted(&mut random, size).bytes(),
            _ => checkable(&mut random, size).bytes(),
        };
        tally.check(&comparison.check_with(Chains::On, &bytes).unwrap());
    }
    for words in ["check race-free", "check race", "check cycle"] {
        assert!(tally.of(words) > 100, "{words}:\n{tally}");
    }
}
