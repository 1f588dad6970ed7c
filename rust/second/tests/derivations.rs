//! The reader of derivations: what it accepts, and what it must not.

mod common;

use common::{checked, from_hex, table_p, TABLE_P};
use second::{AcceptsAnswer, Derivation, State};
use tables::builder::{kind, order};

/// Why row 1's availability moment (3) of table P happens before row 2's
/// visibility moment (8): to the release (2 × 512 + 4), to the acquire that
/// synchronizes with it (512 + 7), to the moment after (3 × 512 + 8).
const STEPS: [u16; 3] = [1028, 519, 1544];

fn of_p(first: u16, second: u16, classes: u8, steps: &[u16]) -> String {
    let chain = Derivation::Chain { classes, steps };
    let answer = State::new().accepts(&table_p().bytes(), first, second, chain);
    answer.to_string()
}

fn word_of_p(first: u16, second: u16) -> AcceptsAnswer {
    State::new().accepts(&table_p().bytes(), first, second, Derivation::ProgramOrder)
}

#[test]
fn a_chain_is_accepted_as_it_stands_only() {
    assert_eq!(of_p(3, 8, 1, &STEPS), "accepted");
    assert_eq!(of_p(3, 4, 1, &STEPS[..1]), "accepted");
    // Too short, to somewhere else, from somewhere else.
    assert_eq!(of_p(3, 8, 1, &STEPS[..2]), "not-accepted");
    assert_eq!(of_p(3, 10, 1, &STEPS), "not-accepted");
    assert_eq!(of_p(4, 8, 1, &STEPS), "not-accepted");
    // A case that isn't that step's; one that there is not.
    for (place, step) in [(0, 1540), (1, 1031), (2, 520), (1, 7), (1, 2055)] {
        let mut steps = STEPS;
        steps[place] = step;
        assert_eq!(of_p(3, 8, 1, &steps), "not-accepted", "{steps:?}");
    }
}

#[test]
fn a_class_set_is_one_of_fifteen_and_held_by_all() {
    for classes in 0..=255 {
        let expected = if classes == 1 {
            "accepted"
        } else {
            "not-accepted"
        };
        assert_eq!(of_p(3, 8, classes, &STEPS), expected, "{classes}");
    }
}

#[test]
fn a_chain_has_1_to_383_steps() {
    assert_eq!(of_p(3, 4, 1, &[]), "not-accepted");
    // Two read-modify-writes that read each other: their steps go round. That
    // such a run is impossible is no matter of a derivation.
    let mut table = table_p();
    for row in [1, 2] {
        (table.rows[row].kind, table.rows[row].order) = (kind::RMW, order::BOTH);
        (table.rows[row].rank, table.rows[row].source) = (row as u16, 3 - row as u16);
    }
    let steps: Vec<u16> = (0..400)
        .map(|place| {
            if place == 0 {
                STEPS[0]
            } else {
                [516, 519][place % 2]
            }
        })
        .collect();
    let mut state = State::new();
    for count in [1, 2, 191, 192, 382, 383, 384, 385, 399] {
        let second = [7, 4][count % 2];
        let steps = &steps[..count];
        let chain = Derivation::Chain { classes: 1, steps };
        let answer = state.accepts(&table.bytes(), 3, second, chain);
        assert_eq!(answer == AcceptsAnswer::Accepted, count <= 383, "{count}");
    }
}

#[test]
fn the_word_is_program_order() {
    assert_eq!(word_of_p(1, 4), AcceptsAnswer::Accepted);
    assert_eq!(word_of_p(3, 4), AcceptsAnswer::Accepted);
    assert_eq!(word_of_p(4, 1), AcceptsAnswer::NotAccepted);
    assert_eq!(word_of_p(3, 8), AcceptsAnswer::NotAccepted);
    let state = checked(&table_p());
    assert!(state.happens_before(3, 8));
}

#[test]
fn absent_moments_and_equal_ones_are_refusal_12() {
    let refused = AcceptsAnswer::Refused { number: 12, row: 0 };
    for (first, second) in [(0, 4), (4, 5), (4, 4), (1, 12), (65535, 1), (513, 4)] {
        assert_eq!(word_of_p(first, second), refused, "{first} {second}");
        assert_eq!(of_p(first, second, 1, &STEPS), "refused 12 0");
    }
}

#[test]
fn a_fill_s_refusals_come_first() {
    let mut table = from_hex(TABLE_P);
    let word = Derivation::ProgramOrder;
    let accepts = |table: &[u8]| State::new().accepts(table, 0, 0, word).to_string();
    assert_eq!(accepts(&table), "refused 12 0");
    // A blank is none of them.
    let source = table.len() - 4;
    table[source..source + 2].copy_from_slice(&[255, 254]);
    assert_eq!(accepts(&table), "refused 12 0");
    table[source..source + 2].copy_from_slice(&[0, 3]);
    assert_eq!(accepts(&table), "refused 9 3");
    table[4] = 4;
    assert_eq!(accepts(&table), "refused 2 0");
    assert_eq!(accepts(&[]), "refused 1 0");
}
