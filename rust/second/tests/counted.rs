//! Counted ranks: which of two is later, refusal 15, and the rules that read
//! the order.

mod common;

use common::*;
use tables::{Build, Row, Table, BLANK};

/// Writers of one place with the ranks, each by an agent of its own, all
/// mutually-ordered.
fn writers(ranks: &[u16]) -> Table {
    let row = |(agent, rank): (usize, &u16)| flag(Row::atomic_write(agent as u8, *rank));
    let rows: Vec<Row> = ranks.iter().enumerate().map(row).collect();
    Table::of_one_workgroup(ranks.len() as u16, &rows)
}

/// Whether the first of two writers comes before the second in their order,
/// and the second before the first.
fn order_of(first: u16, second: u16, is_counted: bool) -> (bool, bool) {
    let table = writers(&[first, second]);
    let table = if is_counted { table.counted() } else { table };
    let state = checked(&table);
    (
        state.modification_order(0, 1),
        state.modification_order(1, 0),
    )
}

#[test]
fn later_is_1_to_32767_counts_further_on() {
    for first in [0u16, 1, 7, 32767, 32768, 65000, 65535] {
        for further in [1, 2, 300, 32766, 32767] {
            let second = first.wrapping_add(further);
            assert_eq!(order_of(first, second, true), (true, false));
            assert_eq!(order_of(second, first, true), (false, true));
            let plain = (first < second, second < first);
            assert_eq!(order_of(first, second, false), plain);
        }
        let opposite = first.wrapping_add(32768);
        let table = writers(&[first, opposite]).counted();
        assert_eq!(check(&table), "refused 15 1");
    }
}

#[test]
fn a_sequence_goes_on_over_the_end_of_the_counter() {
    let with = |first, second| {
        let mut table = table_p();
        table.rows[1].rank = first;
        table.agents.push([0, 0, 2]);
        table.insert(2, flag(Row::rmw(2, 1, second)));
        table.rows[3].source = 2;
        table
    };
    assert_eq!(check(&with(65535, 0).counted()), "race-free");
    assert_eq!(check(&with(65535, 0)), "cycle 2 rows 1 2 edges 3 2");
    // In counts, the other way round.
    assert_eq!(
        check(&with(0, 65535).counted()),
        "cycle 2 rows 1 2 edges 3 2"
    );
    assert_eq!(check(&with(0, 65535)), "race-free");
}

#[test]
fn another_write_within_the_run_ends_a_sequence() {
    let with = |between| {
        let mut table = table_p();
        table.rows[1].rank = 65530;
        table.agents.push([0, 0, 2]);
        table.insert(2, flag(Row::atomic_write(2, between)));
        table.insert(3, flag(Row::rmw(2, 2, 5)));
        table.rows[4].source = 3;
        check(&table.counted())
    };
    // Between the two, and before both.
    assert_eq!(with(2), "race 0 5 0");
    let mut table = table_p();
    table.rows[1].rank = 65530;
    table.agents.push([0, 0, 2]);
    table.insert(1, flag(Row::atomic_write(2, 65529)));
    table.insert(3, flag(Row::rmw(2, 2, 5)));
    table.rows[4].source = 3;
    assert_eq!(check(&table.counted()), "race-free");
}

#[test]
fn from_reads_read_the_counted_order() {
    let with = |second: u16| {
        let rows = [
            flag(Row::atomic_write(0, 65535)),
            flag(Row::atomic_write(0, second)),
            flag(Row::atomic_read(0, 0)),
        ];
        Table::of_one_workgroup(1, &rows)
    };
    assert_eq!(check(&with(3).counted()), "cycle 2 rows 1 2 edges 1 4");
    assert_eq!(check(&with(65534)), "cycle 2 rows 0 1 edges 1 2");
    let blank = Row::read(0, BLANK).at(4, 4).reference(2);
    let mut table = with(3);
    table.rows[2] = blank;
    assert_eq!(fill(&table.clone().counted()), "filled 65535 65535 1");
    assert_eq!(fill(&table), "none");
}

#[test]
fn refusal_15_at_the_first_row_that_does_not_fit() {
    let counted = |ranks: &[u16]| check(&writers(ranks).counted());
    assert_eq!(counted(&[0, 32767]), "race-free");
    assert_eq!(counted(&[0, 32768]), "refused 15 1");
    assert_eq!(counted(&[32768, 0]), "refused 15 1");
    assert_eq!(counted(&[65535, 0, 32766]), "race-free");
    assert_eq!(counted(&[65535, 0, 32767]), "refused 15 2");
    // Three that fit two by two, but not all together.
    assert_eq!(counted(&[0, 20000, 45000]), "refused 15 2");
    assert_eq!(counted(&[0, 32767, 65535]), "refused 15 2");
    assert_eq!(check(&writers(&[0, 32768])), "race-free");
}

#[test]
fn refusal_15_asks_one_place_and_no_scope() {
    let other = |row: Row| row.at(8, 4).reference(9);
    let mut table = writers(&[0, 32768]);
    table.rows[1] = other(table.rows[1]);
    assert_eq!(check(&table.counted()), "race-free");
    let mut table = writers(&[0, 32768]);
    table.rows[1].reference = 9;
    assert_eq!(check(&table.counted()), "race 0 1 4");
    // Writers that aren't mutually-ordered fit in one run all the same.
    let mut table = writers(&[0, 32768]);
    table.rows[1].scope = 1;
    assert_eq!(check(&table.counted()), "refused 15 1");
}

#[test]
fn refusal_10_is_equality_still() {
    let counted = |ranks: &[u16]| check(&writers(ranks).counted());
    assert_eq!(counted(&[7, 7]), "refused 10 1");
    // A row's 10 before its 15, an earlier row's 15 before a later row's 10.
    assert_eq!(counted(&[0, 32767, 0]), "refused 10 2");
    assert_eq!(counted(&[0, 32768, 0]), "refused 15 1");
}

#[test]
fn refusal_2_of_versions() {
    let of_version = |version| {
        let mut table = writers(&[1, 2]);
        table.version = version;
        check(&table)
    };
    for version in [1, 2, 3] {
        assert_eq!(of_version(version), "race-free");
    }
    for version in [0, 4, 255] {
        assert_eq!(of_version(version), "refused 2 0");
    }
}
