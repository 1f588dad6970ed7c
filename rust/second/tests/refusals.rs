//! Every refusal, where possible at a row other than the first.

mod common;

use common::*;
use second::{CheckAnswer, FillAnswer, State, CYCLE_NUMBERS, SOURCE_NUMBERS, WORK_WORDS};
use tables::builder::flags::{MAKE_AVAILABLE, MAKE_VISIBLE, NON_PRIVATE};
use tables::builder::order::{ACQUIRE, BOTH, RELAXED, RELEASE};
use tables::{Build, Row, Table, BLANK, INITIAL};

/// Checks P with one change to its bytes.
fn check_changed(change: impl Fn(&mut Vec<u8>)) -> String {
    let mut bytes = from_hex(TABLE_P);
    change(&mut bytes);
    check_bytes(&bytes)
}

/// Checks P with one change to its rows.
fn check_rows(change: impl Fn(&mut [Row])) -> String {
    let mut table = table_p();
    change(&mut table.rows);
    check(&table)
}

/// Checks P with a row added as its fifth.
fn check_added(row: Row) -> String {
    let mut table = table_p();
    table.rows.push(row);
    check(&table)
}

#[test]
fn short_buffers_are_refused_first() {
    let mut state = State::new();
    let refused = CheckAnswer::Refused { number: 11, row: 0 };
    assert_eq!(state.check(&[], WORK_WORDS - 1, CYCLE_NUMBERS), refused);
    assert_eq!(state.check(&[], WORK_WORDS, CYCLE_NUMBERS - 1), refused);
    let refused = FillAnswer::Refused { number: 11, row: 0 };
    assert_eq!(state.fill(&[], WORK_WORDS - 1, SOURCE_NUMBERS), refused);
    assert_eq!(state.fill(&[], WORK_WORDS, SOURCE_NUMBERS - 1), refused);
}

#[test]
fn refusal_1_short_table() {
    assert_eq!(check_bytes(&[]), "refused 1 0");
    assert_eq!(check_changed(|bytes| bytes.truncate(7)), "refused 1 0");
    assert_eq!(fill_bytes(&from_hex("02020202020202")), "refused 1 0");
}

#[test]
fn refusal_2_version_and_zero_byte() {
    assert_eq!(check_changed(|bytes| bytes[4] = 0), "refused 2 0");
    assert_eq!(check_changed(|bytes| bytes[7] = 1), "refused 2 0");
    assert_eq!(check_changed(|bytes| bytes.truncate(8)), "refused 4 0");
}

#[test]
fn refusal_3_too_many() {
    assert_eq!(check_changed(|bytes| bytes[5] = 33), "refused 3 0");
    assert_eq!(check_changed(|bytes| bytes[6] = 129), "refused 3 0");
    assert_eq!(check_changed(|bytes| bytes[5] = 32), "refused 4 0");
    assert_eq!(check_changed(|bytes| bytes[6] = 128), "refused 4 0");
}

#[test]
fn refusal_4_lengths() {
    assert_eq!(check_changed(|bytes| bytes[3] += 1), "refused 4 0");
    assert_eq!(check_changed(|bytes| bytes[0] = 1), "refused 4 0");
    assert_eq!(check_changed(|bytes| bytes.push(0)), "refused 4 0");
    assert_eq!(check_changed(|bytes| bytes.truncate(83)), "refused 4 0");
}

#[test]
fn refusal_5_codes() {
    assert_eq!(check_rows(|rows| rows[1].kind = 7), "refused 5 1");
    assert_eq!(check_rows(|rows| rows[2].agent = 2), "refused 5 2");
    assert_eq!(check_rows(|rows| rows[3].order = 4), "refused 5 3");
    assert_eq!(check_rows(|rows| rows[3].scope = 5), "refused 5 3");
    assert_eq!(check_rows(|rows| rows[1].classes = 17), "refused 5 1");
    assert_eq!(check_rows(|rows| rows[2].flags = 9), "refused 5 2");
    assert_eq!(check_rows(|rows| rows[2].class = 4), "refused 5 2");
    let barrier = Row::barrier(1, ACQUIRE, 1).class(4);
    assert_eq!(check_added(barrier), "refused 5 4");
}

#[test]
fn refusal_6_plain_rows() {
    assert_eq!(check_rows(|rows| rows[3].order = 1), "refused 6 3");
    assert_eq!(check_rows(|rows| rows[3].classes = 1), "refused 6 3");
    assert_eq!(check_rows(|rows| rows[3].scope = 1), "refused 6 3");
    assert_eq!(check_rows(|rows| rows[3].rank = 1), "refused 6 3");
    let shared = NON_PRIVATE;
    let available = MAKE_AVAILABLE;
    let visible = MAKE_VISIBLE;
    assert_eq!(check_rows(|rows| rows[3].flags = visible), "refused 6 3");
    assert_eq!(
        check_rows(|rows| rows[3].flags = shared | available),
        "refused 6 3"
    );
    assert_eq!(check_added(Row::write(1).make_visible()), "refused 6 4");
    let mut write = Row::write(1);
    write.source = 0;
    assert_eq!(check_added(write), "refused 6 4");
}

#[test]
fn flagged_plain_row_may_have_scope_0() {
    assert_eq!(
        check_rows(|rows| rows[3].flags |= MAKE_VISIBLE),
        "race-free"
    );
}

#[test]
fn refusal_6_atomic_rows() {
    assert_eq!(check_rows(|rows| rows[1].flags &= !1), "refused 6 1");
    assert_eq!(check_rows(|rows| rows[1].order = BOTH), "refused 6 1");
    assert_eq!(check_rows(|rows| rows[1].order = ACQUIRE), "refused 6 1");
    assert_eq!(check_rows(|rows| rows[2].order = RELEASE), "refused 6 2");
    assert_eq!(check_rows(|rows| rows[2].order = BOTH), "refused 6 2");
    assert_eq!(check_rows(|rows| rows[2].order = RELAXED), "refused 6 2");
    assert_eq!(check_rows(|rows| rows[2].classes = 0), "refused 6 2");
    assert_eq!(
        check_rows(|rows| rows[2].flags |= MAKE_AVAILABLE),
        "refused 6 2"
    );
    assert_eq!(
        check_rows(|rows| rows[1].flags |= MAKE_VISIBLE),
        "refused 6 1"
    );
    assert_eq!(check_rows(|rows| rows[1].source = 0), "refused 6 1");
    assert_eq!(check_rows(|rows| rows[2].rank = 1), "refused 6 2");
    let mut relaxed = flag(Row::rmw(1, 1, 2));
    relaxed.classes = 1;
    assert_eq!(check_added(relaxed), "refused 6 4");
}

#[test]
fn refusal_6_barriers() {
    let barrier = Row::barrier(1, ACQUIRE, 1);
    assert_eq!(check_added(barrier), "race-free");
    assert_eq!(check_added(Row::barrier(1, RELAXED, 0)), "refused 6 4");
    assert_eq!(check_added(Row::barrier(1, BOTH, 0)), "refused 6 4");
    assert_eq!(check_added(barrier.make_available()), "refused 6 4");
    assert_eq!(check_added(barrier.class(1)), "refused 6 4");
    assert_eq!(check_added(barrier.at(0, 1)), "refused 6 4");
    assert_eq!(check_added(barrier.at(1, 0)), "refused 6 4");
    assert_eq!(check_added(barrier.reference(1)), "refused 6 4");
    let mut changed = barrier;
    changed.flags = NON_PRIVATE;
    assert_eq!(check_added(changed), "refused 6 4");
    changed = barrier;
    changed.rank = 1;
    assert_eq!(check_added(changed), "refused 6 4");
    changed = barrier;
    changed.source = 0;
    assert_eq!(check_added(changed), "refused 6 4");
}

#[test]
fn refusal_7_bytes() {
    assert_eq!(check_rows(|rows| rows[3].length = 0), "refused 7 3");
    assert_eq!(check_rows(|rows| rows[3].length = 17), "refused 7 3");
    assert_eq!(check_rows(|rows| rows[0].start = 65533), "refused 7 0");
}

/// Checks P with an atomic of each kind added as its fifth row; all three
/// have one answer.
fn check_atomics(start: u16, length: u8) -> String {
    let rows = [
        Row::atomic_read(1, INITIAL),
        Row::atomic_write(1, 7),
        Row::rmw(1, INITIAL, 7),
    ];
    let answers = rows.map(|row| check_added(row.at(start, length).reference(9)));
    assert!(answers.iter().all(|answer| *answer == answers[0]));
    answers[0].clone()
}

#[test]
fn refusal_7_bytes_of_atomics() {
    for length in 0..=255 {
        let fits = matches!(length, 4 | 8);
        let answer = if fits { "race-free" } else { "refused 7 4" };
        assert_eq!(check_atomics(4096, length), answer, "{length} bytes");
    }
    for start in 64..100 {
        for length in [4, 8] {
            let fits = start % u16::from(length) == 0;
            let answer = if fits { "race-free" } else { "refused 7 4" };
            assert_eq!(check_atomics(start, length), answer, "{length} at {start}");
        }
    }
    assert_eq!(check_atomics(65532, 4), "race-free");
    assert_eq!(check_atomics(65528, 8), "race-free");
    assert_eq!(check_atomics(65532, 8), "refused 7 4");
    // A plain row of the same bytes passes.
    let plain = |length| check_added(Row::write(1).at(66, length).reference(9));
    assert!((1..=16).all(|length| plain(length) == "race-free"));
}

#[test]
fn refusal_7_of_an_atomic_comes_in_its_place() {
    let three_bytes = |row: Row| row.at(8, 3);
    // After its own 6, before a later row's 5 and before any 8.
    assert_eq!(
        check_rows(|rows| rows[1] = three_bytes(rows[1]).order(BOTH, 1)),
        "refused 6 1"
    );
    let two = |rows: &mut [Row]| {
        rows[1] = three_bytes(rows[1]);
        rows[3].scope = 5;
    };
    assert_eq!(check_rows(two), "refused 7 1");
    let two = |rows: &mut [Row]| {
        rows[1].class = 1;
        rows[2] = three_bytes(rows[2]);
    };
    assert_eq!(check_rows(two), "refused 7 2");
}

#[test]
fn refusal_8_another_class() {
    assert_eq!(check_rows(|rows| rows[2].class = 1), "refused 8 2");
    // A barrier's zero reference is no access's reference.
    let mut table = table_p();
    table.rows.push(Row::barrier(1, ACQUIRE, 1));
    let read = Row::read(1, INITIAL).at(90, 1).reference(0).class(1);
    table.rows.push(read);
    assert_eq!(check(&table), "race-free");
}

#[test]
fn refusal_9_sources() {
    assert_eq!(check_rows(|rows| rows[3].source = 3), "refused 9 3");
    assert_eq!(check_rows(|rows| rows[3].source = 2), "refused 9 3");
    assert_eq!(check_rows(|rows| rows[3].source = 1), "refused 9 3");
    assert_eq!(check_rows(|rows| rows[3].source = 4), "refused 9 3");
    assert_eq!(check_rows(|rows| rows[3].source = BLANK), "refused 9 3");
    assert_eq!(check_rows(|rows| rows[3].length = 5), "refused 9 3");
    assert_eq!(check_added(Row::rmw(0, 4, 1).at(64, 4)), "refused 9 4");
    let mut table = table_p();
    table.rows[2].source = BLANK;
    assert_eq!(fill(&table), "refused 9 2");
    table = table_p();
    table.rows.push(flag(Row::rmw(1, BLANK, 2)));
    assert_eq!(fill(&table), "refused 9 4");
}

#[test]
fn refusal_10_equal_ranks() {
    assert_eq!(check_added(flag(Row::atomic_write(1, 1))), "refused 10 4");
    assert_eq!(check_added(flag(Row::rmw(1, 1, 1))), "refused 10 4");
    // Out of scope of one another, equal ranks pass: what is left is a race.
    let far = flag(Row::atomic_write(1, 1)).scope(1);
    assert_eq!(check_added(far), "race 1 4 4");
}

#[test]
fn refusals_are_tested_row_by_row() {
    let two = |first: Row, second: Row| check(&Table::of_one_workgroup(2, &[first, second]));
    // Row 0's 7 before row 1's 5; row 0's 5 before its own 6.
    assert_eq!(two(Row::write(0).at(0, 0), Row::write(7)), "refused 7 0");
    assert_eq!(two(Row::write(7).scope(1), Row::write(0)), "refused 5 0");
    // Row 1's 7 before row 0's 9.
    assert_eq!(two(Row::read(0, 9), Row::write(0).at(0, 0)), "refused 7 1");
    // Row 0's 9 before row 1's 8.
    assert_eq!(two(Row::read(0, 9), Row::write(0).class(1)), "refused 9 0");
    // Row 1's 8 before its own 9.
    assert_eq!(two(Row::write(0), Row::read(0, 9).class(1)), "refused 8 1");
}

#[test]
fn a_refusal_leaves_no_relations() {
    let mut state = checked(&table_p());
    assert!(state.happens_before(1, 10));
    let mut table = table_p();
    table.rows[3].source = 9;
    state.check(&table.bytes(), WORK_WORDS, CYCLE_NUMBERS);
    assert_eq!(state.row_count(), 0);
    assert!(!state.happens_before(1, 10));
}
