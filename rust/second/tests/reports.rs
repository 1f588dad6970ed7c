//! Counts of conflicting pairs, on tables counted by hand.

mod common;

use common::{from_hex, table_p, TABLE_P};
use second::{Counts, ReportAnswer, State, CYCLE_NUMBERS, WORK_WORDS};
use tables::{checkable, Build, Random, Row, Size, Table, INITIAL};

fn report_bytes(table: &[u8]) -> ReportAnswer {
    State::new().report(table, WORK_WORDS, CYCLE_NUMBERS)
}

fn report(table: &Table) -> String {
    report_bytes(&table.bytes()).to_string()
}

#[test]
fn table_p_has_a_mutual_and_an_ordered_pair() {
    // The flag's write and read; the data's.
    assert_eq!(report(&table_p()), "report 2 1 1 0 0.0");
    let mut table = table_p();
    table.rows[3] = table.rows[3].private();
    assert_eq!(report(&table), "report 2 1 0 1 0.5");
}

#[test]
fn pairs_are_counted_once_each() {
    // Three agents' writes of one byte, each racing with both others, and a
    // read elsewhere.
    let write = |agent| Row::write(agent).at(0, 1);
    let rows = [write(0), write(1), write(2), Row::read(0, INITIAL).at(8, 4)];
    let table = Table::of_one_workgroup(3, &rows);
    assert_eq!(report(&table), "report 3 0 0 3 1.0");
    // One agent's are ordered.
    let rows = [write(0), write(0), write(1)];
    let table = Table::of_one_workgroup(2, &rows);
    assert_eq!(report(&table), "report 3 0 1 2 0.6666666666666666");
}

#[test]
fn no_conflict_is_no_share() {
    let read = |agent| Row::read(agent, INITIAL);
    for rows in [vec![], vec![read(0), read(1)]] {
        let table = Table::of_one_workgroup(2, &rows);
        assert_eq!(report(&table), "report 0 0 0 0 no-share");
    }
}

#[test]
fn refused_and_inconsistent_tables_have_check_s_answer() {
    let mut table = table_p();
    table.rows[3].source = INITIAL;
    assert_eq!(report(&table), "cycle 2 rows 0 3 edges 1 4");
    let mut bytes = from_hex(TABLE_P);
    bytes[4] = 4;
    assert_eq!(report_bytes(&bytes).to_string(), "refused 2 0");
    let short = State::new().report(&bytes, WORK_WORDS - 1, CYCLE_NUMBERS);
    assert_eq!(short.to_string(), "refused 11 0");
}

#[test]
fn the_parts_add_up_and_agree_with_the_check() {
    let mut random = Random::new(61);
    let mut state = State::new();
    let (mut racing, mut free) = (0, 0);
    for _ in 0..2000 {
        let table = checkable(&mut random, Size::of(2, 10)).bytes();
        let answer = state.report(&table, WORK_WORDS, CYCLE_NUMBERS);
        let checked = state.check(&table, WORK_WORDS, CYCLE_NUMBERS).to_string();
        let ReportAnswer::Counts(counts) = answer else {
            assert_eq!(answer.to_string(), checked);
            continue;
        };
        let Counts {
            conflicting,
            mutual,
            ordered,
            racing: races,
        } = counts;
        assert_eq!(conflicting, mutual + ordered + races);
        assert_eq!(races > 0, checked.starts_with("race "));
        assert_eq!(counts.share() == Some(0.0), races == 0 && conflicting > 0);
        assert_eq!(
            counts.share() == Some(1.0),
            races > 0 && races == conflicting
        );
        racing += usize::from(races > 0);
        free += usize::from(races == 0);
    }
    assert!(racing > 200 && free > 200, "{racing} {free}");
}
