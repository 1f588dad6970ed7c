//! Small tables for single rules.

mod common;

use common::*;
use second::{ACQUIRE_STEP, AFTER, AT, BEFORE, RELEASE_STEP, SYNCHRONIZES_STEP};
use tables::builder::classes::{IMAGE, OUTPUT, UNIFORM};
use tables::builder::kind::{ATOMIC_WRITE, RMW};
use tables::builder::order::{ACQUIRE, BOTH, RELEASE};
use tables::builder::scope::{DEVICE, FAMILY, SUBGROUP, WORKGROUP};
use tables::{Build, Row, Table, INITIAL};

fn release_barrier(agent: u8) -> Row {
    Row::barrier(agent, RELEASE, UNIFORM).make_available()
}

fn acquire_barrier(agent: u8) -> Row {
    Row::barrier(agent, ACQUIRE, UNIFORM).make_visible()
}

#[test]
fn moments_of_p() {
    let state = checked(&table_p());
    let existing: Vec<usize> = (0..12).filter(|m| state.moment_exists(*m)).collect();
    // Each row itself, availability before row 1, visibility after row 2.
    assert_eq!(existing, [1, 3, 4, 7, 8, 10]);
    assert!(state.is_availability_moment(3 + BEFORE));
    assert!(state.is_visibility_moment(6 + AFTER));
}

#[test]
fn plain_moments_lie_towards_the_other_agent() {
    let rows = [
        Row::write(0).make_available().scope(DEVICE),
        Row::read(0, 0).make_visible().scope(DEVICE),
        Row::write(0).make_available(),
        Row::read(0, 2).make_visible(),
    ];
    let state = checked(&Table::of_one_workgroup(1, &rows));
    let existing: Vec<usize> = (0..12).filter(|m| state.moment_exists(*m)).collect();
    assert_eq!(existing, [AT, AFTER, 3 + BEFORE, 3 + AT, 6 + AT, 9 + AT]);
}

#[test]
fn relations_of_p() {
    let state = checked(&table_p());
    assert!(state.mutually_ordered(1, 2) && state.mutually_ordered(2, 1));
    assert!(!state.mutually_ordered(1, 1) && !state.mutually_ordered(0, 3));
    assert!(state.synchronizes_with(1, 2) && !state.synchronizes_with(2, 1));
    assert!(state.happens_before(3 + BEFORE, 6 + AFTER));
    assert!(state.happens_before(AT, 9 + AT) && !state.happens_before(9 + AT, AT));
    assert!((0..4).all(|byte| state.location_order(0, 3, byte)));
    assert!(!state.location_order(0, 3, 4) && !state.location_order(3, 0, 0));
}

#[test]
fn direct_steps_of_p() {
    let state = checked(&table_p());
    assert!(state.direct_step(1, RELEASE_STEP, AT, 3 + AT));
    assert!(state.direct_step(1, RELEASE_STEP, 3 + BEFORE, 3 + AT));
    assert!(state.direct_step(1, SYNCHRONIZES_STEP, 3 + AT, 6 + AT));
    assert!(state.direct_step(1, ACQUIRE_STEP, 6 + AT, 6 + AFTER));
    assert!(state.direct_step(1, ACQUIRE_STEP, 6 + AT, 9 + AT));
    assert!(!state.direct_step(3, SYNCHRONIZES_STEP, 3 + AT, 6 + AT));
    assert!(!state.direct_step(1, SYNCHRONIZES_STEP, 6 + AT, 3 + AT));
    assert!(!state.direct_step(1, RELEASE_STEP, 3 + AT, 3 + BEFORE));
    let all = (1..=15u8).flat_map(|set| (1..=3u8).map(move |step| (set, step)));
    let count = all
        .flat_map(|(set, step)| (0..144).map(move |pair| (set, step, pair)))
        .filter(|(set, step, pair)| state.direct_step(*set, *step, pair / 12, pair % 12))
        .count();
    assert_eq!(count, 5);
}

#[test]
fn scopes_are_shared_by_place() {
    let two = |scope: u8, agents: [[u16; 3]; 2]| {
        let rows = [Row::atomic_write(0, 1), Row::atomic_read(1, 0).scope(scope)];
        check(&Table::new(&agents, &rows))
    };
    let race = "race 0 1 0";
    assert_eq!(two(SUBGROUP, [[5, 6, 7], [5, 6, 7]]), "race-free");
    assert_eq!(two(SUBGROUP, [[5, 6, 7], [5, 6, 8]]), race);
    assert_eq!(two(SUBGROUP, [[5, 6, 7], [5, 5, 7]]), race);
    assert_eq!(two(WORKGROUP, [[5, 6, 7], [5, 6, 8]]), "race-free");
    assert_eq!(two(WORKGROUP, [[5, 6, 7], [4, 6, 7]]), race);
    assert_eq!(two(WORKGROUP, [[5, 6, 7], [5, 5, 7]]), race);
    assert_eq!(two(FAMILY, [[5, 6, 7], [5, 0, 0]]), "race-free");
    assert_eq!(two(FAMILY, [[5, 6, 7], [6, 6, 7]]), race);
    assert_eq!(two(DEVICE, [[5, 6, 7], [0, 0, 0]]), "race-free");
    assert_eq!(two(0, [[5, 6, 7], [5, 6, 7]]), race);
}

/// Data, a released flag, two writers of it that don't share a scope with
/// one another, an acquire of the first of them, data again.
fn equal_ranks(second: Row) -> Table {
    let agents = [[0, 0, 0], [0, 0, 1], [0, 1, 0], [0, 0, 3]];
    let wide = |row: Row| row.at(4, 4).reference(2);
    let rows = [
        Row::write(0),
        wide(Row::atomic_write(0, 1))
            .release(UNIFORM)
            .make_available(),
        wide(Row::rmw(1, 1, 2)).scope(WORKGROUP),
        wide(second),
        wide(Row::atomic_read(3, 2)).acquire(UNIFORM).make_visible(),
        Row::read(3, 0),
    ];
    Table::new(&agents, &rows)
}

#[test]
fn equal_ranks_are_in_a_release_sequence_only_together() {
    let broken = equal_ranks(Row::atomic_write(2, 2));
    assert!(!checked(&broken).mutually_ordered(2, 3));
    assert!(!checked(&broken).synchronizes_with(1, 4));
    assert_eq!(check(&broken), "race 0 5 0");
    let whole = equal_ranks(Row::rmw(2, 2, 2));
    assert!(checked(&whole).synchronizes_with(1, 4));
    assert_eq!(check(&whole), "race 2 3 4");
    // A later rank that doesn't qualify ends the sequence after row 2 only.
    let later = equal_ranks(Row::atomic_write(2, 3));
    assert!(checked(&later).synchronizes_with(1, 4));
    assert_eq!(check(&later), "race 2 3 4");
    // So does a later write by the head's own agent.
    let own = equal_ranks(Row::atomic_write(0, 3));
    assert!(checked(&own).synchronizes_with(1, 4));
    assert_eq!(check(&own), "race-free");
}

#[test]
fn release_sequence_ends_before_any_agents_write() {
    // By the head's agent, the acquire's and a third one.
    for agent in 0..3 {
        let mut table = table_p();
        table.agents.push([0, 0, 2]);
        table.insert(2, flag(Row::atomic_write(agent, 2)));
        table.insert(3, flag(Row::rmw(2, 2, 3)));
        table.rows[4].source = 3;
        assert!(!checked(&table).synchronizes_with(1, 4));
        assert_eq!(check(&table), "race 0 5 0");
        table.rows[2].kind = RMW;
        table.rows[2].source = 1;
        assert!(checked(&table).synchronizes_with(1, 4));
        assert_eq!(check(&table), "race-free");
    }
}

#[test]
fn a_relaxed_write_heads_a_sequence_behind_a_barrier() {
    // The barrier's writer X is relaxed, and B reads an RMW that follows X.
    let rows = [
        Row::write(0),
        release_barrier(0),
        flag(Row::atomic_write(0, 1)),
        flag(Row::rmw(2, 2, 2)),
        acquire_flag(1, 3),
        Row::read(1, 0),
    ];
    assert_eq!(check(&Table::of_one_workgroup(3, &rows)), "race-free");
}

#[test]
fn rmw_chain_carries_a_release() {
    let chain = |last: Row| {
        let rows = [
            Row::write(0),
            release_flag(0, 10),
            flag(Row::rmw(1, 1, 20)),
            flag(Row::rmw(2, 2, 30)),
            flag(last),
            acquire_flag(3, 4),
            Row::read(3, 0),
        ];
        Table::of_one_workgroup(4, &rows)
    };
    assert_eq!(check(&chain(Row::rmw(1, 3, 40))), "race-free");
    assert_eq!(check(&chain(Row::atomic_write(0, 40))), "race 0 6 0");
    assert_eq!(check(&chain(Row::atomic_write(1, 40))), "race 0 6 0");
    // Reading past a link breaks atomicity: from-reads against rank order.
    assert_eq!(
        check(&chain(Row::rmw(1, 2, 40))),
        "cycle 2 rows 3 4 edges 2 4"
    );
}

#[test]
fn rmw_is_release_and_acquire_at_once() {
    let middle = flag(Row::rmw(1, 1, 2))
        .order(BOTH, UNIFORM)
        .make_available()
        .make_visible();
    let rows = [
        Row::write(0),
        release_flag(0, 1),
        middle,
        Row::read(1, 0),
        acquire_flag(2, 2),
        Row::write(2),
    ];
    // Row 3 isn't released by row 2, which comes before it.
    assert_eq!(check(&Table::of_one_workgroup(3, &rows)), "race 3 5 0");
    let mut rows = rows;
    rows[3] = Row::read(1, INITIAL).at(90, 1);
    assert_eq!(check(&Table::of_one_workgroup(3, &rows)), "race-free");
}

#[test]
fn release_barrier_and_acquire_atomic() {
    let with = |barrier: Row, writer: Row| {
        let rows = [
            Row::write(0),
            barrier,
            writer,
            acquire_flag(1, 2),
            Row::read(1, 0),
        ];
        Table::of_one_workgroup(2, &rows)
    };
    let writer = flag(Row::atomic_write(0, 1));
    assert_eq!(check(&with(release_barrier(0), writer)), "race-free");
    assert!(checked(&with(release_barrier(0), writer)).synchronizes_with(1, 3));
    let narrow = release_barrier(0).scope(SUBGROUP);
    assert_eq!(check(&with(narrow, writer)), "race 0 4 0");
    let acquire_only = Row::barrier(0, ACQUIRE, UNIFORM);
    assert_eq!(check(&with(acquire_only, writer)), "race 0 4 0");
}

#[test]
fn release_atomic_and_acquire_barrier() {
    let with = |barrier: Row| {
        let rows = [
            Row::write(0),
            release_flag(0, 1),
            flag(Row::atomic_read(1, 1)),
            barrier,
            Row::read(1, 0),
        ];
        Table::of_one_workgroup(2, &rows)
    };
    assert_eq!(check(&with(acquire_barrier(1))), "race-free");
    assert!(checked(&with(acquire_barrier(1))).synchronizes_with(1, 3));
    let narrow = acquire_barrier(1).scope(SUBGROUP);
    assert_eq!(check(&with(narrow)), "race 0 4 0");
    let release_only = Row::barrier(1, RELEASE, UNIFORM);
    assert_eq!(check(&with(release_only)), "race 0 4 0");
}

#[test]
fn two_barriers() {
    let rows = [
        Row::write(0),
        release_barrier(0),
        flag(Row::atomic_write(0, 1)),
        flag(Row::atomic_read(1, 2)),
        acquire_barrier(1),
        Row::read(1, 0),
    ];
    let table = Table::of_one_workgroup(2, &rows);
    assert_eq!(check(&table), "race-free");
    assert!(checked(&table).synchronizes_with(1, 4));
    // The writer comes before the barrier, or the reader after it.
    let mut early = table.clone();
    early.rows.swap(1, 2);
    early.rows[3].source = 1;
    assert_eq!(check(&early), "race 0 5 0");
    let mut late = table.clone();
    late.rows.swap(3, 4);
    assert_eq!(check(&late), "race 0 5 0");
}

#[test]
fn barrier_semantics_hold_the_flags_class() {
    let with = |first: u8, second: u8| {
        let rows = [
            Row::write(0),
            Row::barrier(0, RELEASE, first).make_available(),
            flag(Row::atomic_write(0, 1)).class(3),
            flag(Row::atomic_read(1, 2)).class(3),
            Row::barrier(1, ACQUIRE, second).make_visible(),
            Row::read(1, 0),
        ];
        check(&Table::of_one_workgroup(2, &rows))
    };
    assert_eq!(with(UNIFORM | OUTPUT, UNIFORM | OUTPUT), "race-free");
    assert_eq!(with(UNIFORM, UNIFORM | OUTPUT), "race 0 5 0");
    assert_eq!(with(UNIFORM | OUTPUT, UNIFORM), "race 0 5 0");
    assert_eq!(with(UNIFORM | IMAGE, UNIFORM | IMAGE), "race 0 5 0");
}

#[test]
fn one_barrier_does_not_synchronize_with_itself() {
    // Its writer after it would feed its reader before it.
    let rows = [
        flag(Row::atomic_read(0, 2)),
        Row::barrier(0, BOTH, UNIFORM),
        flag(Row::atomic_write(0, 1)),
    ];
    let table = Table::of_one_workgroup(1, &rows);
    assert!(!checked(&table).synchronizes_with(1, 1));
    assert!(!checked(&table).happens_before(4, 4));
    assert_eq!(check(&table), "cycle 2 rows 0 2 edges 1 3");
}

#[test]
fn overwritten_names_reader_writer_and_byte() {
    let with = |second: Row| {
        let mut table = table_p();
        table.insert(1, second);
        check(&table)
    };
    assert_eq!(with(Row::write(0)), "overwritten 4 1 0");
    assert_eq!(with(Row::write(0).at(2, 1)), "overwritten 4 1 2");
    assert_eq!(with(Row::write(0).at(65000, 1)), "race-free");
}

#[test]
fn overwritten_gives_the_least_writer() {
    let mut table = table_p();
    table.insert(1, Row::write(0).at(3, 1));
    table.insert(2, Row::write(0).at(0, 1));
    assert_eq!(check(&table), "overwritten 5 1 3");
}

#[test]
fn rmw_before_a_write_needs_availability() {
    let with = |release: Row| {
        let rows = [
            Row::rmw(0, INITIAL, 1),
            release,
            flag(Row::atomic_read(1, 1)).acquire(UNIFORM),
            Row::write(1),
        ];
        check(&Table::of_one_workgroup(2, &rows))
    };
    let release = flag(Row::atomic_write(0, 1)).release(UNIFORM);
    assert_eq!(with(release), "race 0 3 0");
    assert_eq!(with(release.make_available()), "race-free");
}

#[test]
fn rmw_after_a_write_needs_visibility() {
    let with = |acquire: Row, last: Row| {
        let rows = [Row::write(0), release_flag(0, 1), acquire, last];
        check(&Table::of_one_workgroup(2, &rows))
    };
    let acquire = flag(Row::atomic_read(1, 1)).acquire(UNIFORM);
    let mut write = Row::rmw(1, 0, 1);
    assert_eq!(with(acquire, write), "race 0 3 0");
    assert_eq!(with(acquire.make_visible(), write), "race-free");
    write.kind = ATOMIC_WRITE;
    write.source = INITIAL;
    assert_eq!(with(acquire, write), "race-free");
}

#[test]
fn an_atomics_own_availability_does_not_cover_it() {
    // Rows 0 and 2 aren't mutually-ordered: their lengths differ.
    let rows = [
        Row::atomic_write(0, 1).release(UNIFORM).make_available(),
        Row::atomic_read(1, 0).acquire(UNIFORM).make_visible(),
        Row::read(1, 0).at(0, 2),
    ];
    assert_eq!(check(&Table::of_one_workgroup(2, &rows)), "race 0 2 0");
}

#[test]
fn availability_needs_a_scope_that_the_agents_share() {
    let with = |available: u8, visible: u8| {
        let rows = [
            Row::write(0).make_available().scope(available),
            flag(Row::atomic_write(0, 1)).release(UNIFORM),
            flag(Row::atomic_read(1, 1)).acquire(UNIFORM),
            Row::read(1, 0).make_visible().scope(visible),
        ];
        check(&Table::of_one_workgroup(2, &rows))
    };
    assert_eq!(with(WORKGROUP, WORKGROUP), "race-free");
    assert_eq!(with(SUBGROUP, WORKGROUP), "race 0 3 0");
    assert_eq!(with(WORKGROUP, SUBGROUP), "race 0 3 0");
    assert_eq!(with(0, WORKGROUP), "race 0 3 0");
}

#[test]
fn one_agent_needs_one_reference() {
    let rows = [Row::write(0), Row::read(0, 0).reference(2)];
    assert_eq!(check(&Table::of_one_workgroup(1, &rows)), "race 0 1 0");
    let rows = [Row::read(0, INITIAL), Row::write(0).reference(2)];
    assert_eq!(check(&Table::of_one_workgroup(1, &rows)), "race-free");
    let rows = [Row::write(0).private(), Row::read(0, 0).private()];
    assert_eq!(check(&Table::of_one_workgroup(1, &rows)), "race-free");
}

#[test]
fn a_reference_of_another_class_is_not_covered() {
    let mut table = table_p();
    table.rows[0].class = 2;
    table.rows[3].class = 2;
    table.rows[1].classes = UNIFORM | IMAGE;
    table.rows[2].classes = UNIFORM | IMAGE;
    assert_eq!(check(&table), "race-free");
    table.rows[1].classes = UNIFORM;
    assert_eq!(check(&table), "race 0 3 0");
}

#[test]
fn canonical_cycle_is_shortest_then_least() {
    // Each reader reads the initial value and is ordered after the write.
    let mut table = table_p();
    table.rows[3].source = INITIAL;
    table.rows.push(Row::read(1, INITIAL));
    assert_eq!(check(&table), "cycle 2 rows 0 3 edges 1 4");
}

#[test]
fn canonical_cycle_of_three_rows() {
    // Initial read after an own read of a later write.
    let rows = [
        flag(Row::atomic_read(0, 2)),
        flag(Row::atomic_read(0, INITIAL)),
        flag(Row::atomic_write(1, 1)),
    ];
    let table = Table::of_one_workgroup(2, &rows);
    assert_eq!(check(&table), "cycle 3 rows 0 1 2 edges 1 4 3");
}

#[test]
fn cycle_comes_before_overwritten_and_race() {
    let mut table = table_p();
    table.insert(1, Row::write(0));
    table.rows.push(Row::read(1, INITIAL));
    table.rows.push(Row::write(1).at(0, 1).reference(9));
    assert_eq!(check(&table), "cycle 2 rows 0 5 edges 1 4");
    table.rows.remove(5);
    assert_eq!(check(&table), "overwritten 4 1 0");
    table.rows.remove(4);
    assert_eq!(check(&table), "race 0 4 0");
}
