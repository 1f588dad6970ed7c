//! Every run that the rules list as one to check.

mod common;

use common::*;
use tables::builder::flags::{MAKE_AVAILABLE, MAKE_VISIBLE};
use tables::{Build, Row, Table, BLANK, INITIAL};

#[test]
fn builder_gives_table_p() {
    assert_eq!(table_p().bytes(), from_hex(TABLE_P));
}

#[test]
fn p_is_race_free() {
    assert_eq!(check_bytes(&from_hex(TABLE_P)), "race-free");
}

#[test]
fn p_without_make_available_races() {
    let mut table = table_p();
    table.rows[1].flags &= !MAKE_AVAILABLE;
    assert_eq!(check(&table), "race 0 3 0");
}

#[test]
fn p_without_make_visible_races() {
    let mut table = table_p();
    table.rows[2].flags &= !MAKE_VISIBLE;
    assert_eq!(check(&table), "race 0 3 0");
}

#[test]
fn p_with_private_read_races() {
    let mut table = table_p();
    table.rows[3] = table.rows[3].private();
    assert_eq!(check(&table), "race 0 3 0");
}

#[test]
fn p_reading_the_initial_value_is_a_cycle() {
    let mut table = table_p();
    table.rows[3].source = INITIAL;
    assert_eq!(check(&table), "cycle 2 rows 0 3 edges 1 4");
}

#[test]
fn p_with_both_initial_races() {
    let mut table = table_p();
    table.rows[2].source = INITIAL;
    table.rows[3].source = INITIAL;
    assert_eq!(check(&table), "race 0 3 0");
}

#[test]
fn p_in_two_workgroups_races() {
    let mut table = table_p();
    table.agents[1] = [0, 1, 1];
    assert_eq!(check(&table), "race 0 3 0");
}

#[test]
fn fill_of_p_finds_the_write() {
    let mut table = table_p();
    table.rows[3].source = BLANK;
    assert_eq!(fill(&table), "filled 65535 65535 1 0");
}

/// P with a row put in as row 2 that the acquire reads.
fn table_q(row: Row) -> Table {
    let mut table = table_p();
    table.insert(2, row);
    table.rows[3].source = 2;
    table
}

#[test]
fn q_with_a_write_of_the_same_agent_races() {
    assert_eq!(check(&table_q(flag(Row::atomic_write(0, 2)))), "race 0 4 0");
}

#[test]
fn q_with_an_rmw_of_a_third_agent_is_race_free() {
    let mut table = table_q(flag(Row::rmw(2, 1, 2)));
    table.agents.push([0, 0, 2]);
    assert_eq!(check(&table), "race-free");
}

#[test]
fn empty_table_is_race_free() {
    assert_eq!(check_bytes(&from_hex("0000000401000000")), "race-free");
}

#[test]
fn versions_1_to_3_pass() {
    assert_eq!(check_bytes(&from_hex("0000000402000000")), "race-free");
    assert_eq!(check_bytes(&from_hex("00000006030000000000")), "race-free");
    assert_eq!(check_bytes(&from_hex("0000000403000000")), "refused 4 0");
    assert_eq!(check_bytes(&from_hex("0000000404000000")), "refused 2 0");
    assert_eq!(check_bytes(&from_hex("0000000400000000")), "refused 2 0");
}

#[test]
fn rows_up_to_128_pass() {
    let mut table = Table::of_one_workgroup(1, &[Row::read(0, INITIAL); 128]);
    assert_eq!(check(&table), "race-free");
    table.rows.push(Row::read(0, INITIAL));
    assert_eq!(check(&table), "refused 3 0");
}

#[test]
fn agents_up_to_32_pass() {
    let rows: Vec<Row> = (0..32).map(|agent| Row::read(agent, INITIAL)).collect();
    assert_eq!(check(&Table::of_one_workgroup(32, &rows)), "race-free");
    assert_eq!(check(&Table::of_one_workgroup(33, &rows)), "refused 3 0");
    let last = Row::read(32, INITIAL);
    assert_eq!(check(&Table::of_one_workgroup(32, &[last])), "refused 5 0");
}

#[test]
fn the_largest_table_passes() {
    let rows: Vec<Row> = (0..128).map(|row| Row::read(row % 32, INITIAL)).collect();
    let table = Table::of_one_workgroup(32, &rows);
    assert_eq!(table.bytes().len(), 2248);
    assert_eq!(check(&table), "race-free");
    let answer = fill(&table);
    assert_eq!(answer, format!("filled{}", " 65535".repeat(128)));
}

#[test]
fn lengths_up_to_16_pass() {
    let of_length = |length| {
        Table::of_one_workgroup(1, &[Row::write(0), Row::read(0, INITIAL).at(100, length)])
    };
    assert_eq!(check(&of_length(16)), "race-free");
    assert_eq!(check(&of_length(17)), "refused 7 1");
}

#[test]
fn last_byte_passes() {
    let of_length =
        |length| Table::of_one_workgroup(1, &[Row::write(0), Row::write(0).at(65535, length)]);
    assert_eq!(check(&of_length(1)), "race-free");
    assert_eq!(check(&of_length(2)), "refused 7 1");
}
