//! Shared by the tests: tables that recur, and answers as text.

#![allow(dead_code)]

use second::{Chains, State, CYCLE_NUMBERS, SOURCE_NUMBERS, WORK_WORDS};
use tables::builder::classes::UNIFORM;
use tables::{Build, Row, Table};

pub const TABLE_P: &str = "00000050 01020400 000000000000 000000000001 \
    010000000001000400000001FFFF0000 \
    030002020103000400040002FFFF0001 \
    02010102010500040004000200010000 \
    00010000000100040000000100000000";

pub fn from_hex(digits: &str) -> Vec<u8> {
    let digits: String = digits.split_whitespace().collect();
    (0..digits.len())
        .step_by(2)
        .map(|at| u8::from_str_radix(&digits[at..at + 2], 16).unwrap())
        .collect()
}

pub fn check_bytes(table: &[u8]) -> String {
    State::new()
        .check(table, WORK_WORDS, CYCLE_NUMBERS)
        .to_string()
}

pub fn check_bytes_with(chains: Chains, table: &[u8]) -> String {
    State::new()
        .check_with(chains, table, WORK_WORDS, CYCLE_NUMBERS)
        .to_string()
}

pub fn fill_bytes(table: &[u8]) -> String {
    State::new()
        .fill(table, WORK_WORDS, SOURCE_NUMBERS)
        .to_string()
}

pub fn check(table: &Table) -> String {
    check_bytes(&table.bytes())
}

pub fn fill(table: &Table) -> String {
    fill_bytes(&table.bytes())
}

/// The state after a check of an admitted table.
pub fn checked(table: &Table) -> State {
    let mut state = State::new();
    state.check(&table.bytes(), WORK_WORDS, CYCLE_NUMBERS);
    assert_eq!(state.row_count(), table.rows.len());
    state
}

/// Table P by the builder: write data, release a flag, acquire it, read data.
pub fn table_p() -> Table {
    Table::of_one_workgroup(
        2,
        &[
            Row::write(0),
            release_flag(0, 1),
            acquire_flag(1, 1),
            Row::read(1, 0),
        ],
    )
}

/// A flag is an atomic place of its own: bytes 4 to 7, reference 2.
pub fn flag(row: Row) -> Row {
    row.at(4, 4).reference(2).scope(2)
}

pub fn release_flag(agent: u8, rank: u16) -> Row {
    flag(Row::atomic_write(agent, rank))
        .release(UNIFORM)
        .make_available()
}

pub fn acquire_flag(agent: u8, source: u16) -> Row {
    flag(Row::atomic_read(agent, source))
        .acquire(UNIFORM)
        .make_visible()
}
