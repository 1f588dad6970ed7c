//! Fills: filled, none, race and what a fill never does.

mod common;

use common::*;
use second::{FillAnswer, State, SOURCE_NUMBERS, WORK_WORDS};
use tables::{Build, Row, Table, BLANK, INITIAL};

#[test]
fn a_table_without_blanks_is_its_own_filling() {
    assert_eq!(fill(&table_p()), "filled 65535 65535 1 0");
    assert_eq!(fill(&Table::default()), "filled");
    let mut table = table_p();
    table.rows[3].source = INITIAL;
    assert_eq!(fill(&table), "none");
}

#[test]
fn a_blank_takes_the_last_write() {
    let mut table = table_p();
    table.insert(1, Row::write(0));
    table.rows[4].source = BLANK;
    assert_eq!(fill(&table), "filled 65535 65535 65535 2 1");
}

#[test]
fn a_blank_takes_the_initial_value() {
    let mut table = table_p();
    table.rows.insert(0, Row::read(0, BLANK));
    table.rows[3].source = 2;
    table.rows[4].source = BLANK;
    assert_eq!(fill(&table), "filled 65535 65535 65535 2 1");
    let rows = [Row::read(0, BLANK), Row::write(0)];
    assert_eq!(
        fill(&Table::of_one_workgroup(1, &rows)),
        "filled 65535 65535"
    );
}

#[test]
fn a_blank_reads_an_atomic_of_highest_rank() {
    // The later of two mutually-ordered writes, though only ranks order them.
    let rows = [
        Row::atomic_write(0, 2),
        Row::atomic_write(0, 1).reference(1),
        Row::read(0, BLANK),
    ];
    let table = Table::of_one_workgroup(1, &rows);
    // Program order and rank disagree: no filling mends that.
    assert_eq!(fill(&table), "none");
    let mut table = table;
    table.rows.swap(0, 1);
    assert_eq!(fill(&table), "filled 65535 65535 1");
}

#[test]
fn no_single_write_covers_the_blank() {
    let rows = [
        Row::write(0).at(0, 2),
        Row::write(0).at(2, 2),
        Row::read(0, BLANK),
        Row::read(0, BLANK).at(0, 2),
    ];
    assert_eq!(fill(&Table::of_one_workgroup(1, &rows)), "none");
    let rows = [rows[0], rows[1], rows[3]];
    assert_eq!(
        fill(&Table::of_one_workgroup(1, &rows)),
        "filled 65535 65535 0"
    );
}

#[test]
fn a_race_comes_before_none() {
    let mut table = table_p();
    table.rows[3].source = INITIAL;
    table.rows.push(Row::read(1, BLANK).private());
    assert_eq!(fill(&table), "race 0 4 0");
    table.rows[4].source = INITIAL;
    assert_eq!(check(&table), "cycle 2 rows 0 3 edges 1 4");
}

#[test]
fn a_racing_blank_is_a_race() {
    let mut table = table_p();
    table.rows[1].flags = 1;
    table.rows[3].source = BLANK;
    assert_eq!(fill(&table), "race 0 3 0");
}

#[test]
fn one_filling_at_most() {
    let mut table = table_p();
    for _ in 0..20 {
        table.rows.push(Row::read(1, BLANK));
    }
    let mut state = State::new();
    let answer = state.fill(&table.bytes(), WORK_WORDS, SOURCE_NUMBERS);
    let mut sources = vec![65535, 65535, 1, 0];
    sources.extend([0; 20]);
    assert_eq!(answer, FillAnswer::Filled(sources.as_slice().into()));
    assert_eq!(state.fillings_found(), 1);
}
