//! Lent buffers of every length around the limits.

use differential::{Comparison, Lengths};
use second::{Chains, CheckAnswer, FillAnswer};
use stramashly::{CYCLE_NUMBERS, SOURCE_NUMBERS, WORK_WORDS};
use tables::examples;

/// Examples with each verdict and some refusals.
const NAMES: [&str; 8] = [
    "p",
    "leak",
    "overwritten",
    "p-initial",
    "fill",
    "fill-none",
    "empty",
    "version-4",
];

fn tables() -> Vec<Vec<u8>> {
    let named = examples()
        .into_iter()
        .filter(|example| NAMES.contains(&example.name));
    let mut tables: Vec<Vec<u8>> = named.map(|example| example.bytes).collect();
    assert_eq!(tables.len(), NAMES.len());
    // Refusal 11 comes before refusal 1.
    tables.push(Vec::new());
    tables
}

fn check_is_11(comparison: &mut Comparison, table: &[u8], lengths: Lengths) -> bool {
    let answer = comparison.check_in(Chains::Off, table, lengths).unwrap();
    answer == CheckAnswer::Refused { number: 11, row: 0 }
}

fn fill_is_11(comparison: &mut Comparison, table: &[u8], lengths: Lengths) -> bool {
    let answer = comparison.fill_in(Chains::Off, table, lengths).unwrap();
    answer == FillAnswer::Refused { number: 11, row: 0 }
}

/// Every length near the limit, and some others.
fn work_lengths() -> impl Iterator<Item = usize> {
    let near = WORK_WORDS - 70..=WORK_WORDS + 70;
    (0..70)
        .chain((70..WORK_WORDS).step_by(97))
        .chain(near)
        .chain([16_384])
}

#[test]
fn work_areas_of_many_lengths() {
    let mut comparison = Comparison::new(301);
    for table in tables() {
        for work in work_lengths() {
            let is_short = work < WORK_WORDS;
            for numbers in [CYCLE_NUMBERS, CYCLE_NUMBERS + 1] {
                let lengths = Lengths { work, numbers };
                assert_eq!(check_is_11(&mut comparison, &table, lengths), is_short);
            }
            for numbers in [SOURCE_NUMBERS, SOURCE_NUMBERS + 1] {
                let lengths = Lengths { work, numbers };
                assert_eq!(fill_is_11(&mut comparison, &table, lengths), is_short);
            }
        }
    }
}

#[test]
fn cycle_and_source_buffers_of_every_length() {
    let mut comparison = Comparison::new(302);
    for table in tables() {
        for numbers in (0..=CYCLE_NUMBERS + 70).chain([1000, 70_000]) {
            for work in [WORK_WORDS, WORK_WORDS + 1] {
                let lengths = Lengths { work, numbers };
                let is_short = numbers < CYCLE_NUMBERS;
                assert_eq!(check_is_11(&mut comparison, &table, lengths), is_short);
                let is_short = numbers < SOURCE_NUMBERS;
                assert_eq!(fill_is_11(&mut comparison, &table, lengths), is_short);
            }
        }
    }
}

#[test]
fn both_too_short() {
    let mut comparison = Comparison::new(303);
    for table in tables() {
        for work in [0, 1, WORK_WORDS - 1] {
            for numbers in [0, 1, SOURCE_NUMBERS - 1] {
                let lengths = Lengths { work, numbers };
                assert!(check_is_11(&mut comparison, &table, lengths));
                assert!(fill_is_11(&mut comparison, &table, lengths));
            }
        }
    }
}
