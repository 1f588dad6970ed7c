//! Control barriers: kind fit, refusal 14, and what they synchronize.

mod common;

use common::*;
use tables::builder::classes::{IMAGE, UNIFORM};
use tables::builder::order::{ACQUIRE, BOTH, RELAXED, RELEASE};
use tables::builder::scope::{DEVICE, FAMILY, INVOCATION, SUBGROUP, WORKGROUP};
use tables::{Build, Row, Table};

/// A control barrier of instance 9 in workgroup scope, memory and execution.
fn control(agent: u8) -> Row {
    Row::control_barrier(agent, WORKGROUP, 9).scope(WORKGROUP)
}

/// The same with memory semantics for Uniform, as both sides need them.
fn full(agent: u8) -> Row {
    let row = control(agent).order(BOTH, UNIFORM);
    row.make_available().make_visible()
}

fn fence(agent: u8, order: u8) -> Row {
    Row::barrier(agent, order, UNIFORM).scope(WORKGROUP)
}

/// A write, the rows, a read of it by agent 1.
fn between(rows: &[Row]) -> Table {
    let mut all = vec![Row::write(0)];
    all.extend(rows);
    all.push(Row::read(1, 0));
    Table::of_one_workgroup(2, &all)
}

#[test]
fn a_barrier_between_a_write_and_a_read() {
    assert_eq!(check(&between(&[full(0), full(1)])), "race-free");
    // The page's order of the two doesn't matter.
    assert_eq!(check(&between(&[full(1), full(0)])), "race-free");
    let state = checked(&between(&[full(0), full(1)]));
    assert!(state.synchronizes_with(1, 2) && state.synchronizes_with(2, 1));
    assert!(!state.synchronizes_with(1, 1));
    assert_eq!(state.control_barrier(1, 2), Some((1, 2)));
}

#[test]
fn execution_alone_orders_nothing() {
    assert_eq!(check(&between(&[control(0), control(1)])), "race 0 3 0");
    assert_eq!(check(&between(&[full(0), control(1)])), "race 0 3 0");
    assert_eq!(check(&between(&[control(0), full(1)])), "race 0 3 0");
    let relaxed = checked(&between(&[control(0), control(1)]));
    assert!(!relaxed.synchronizes_with(1, 2) && !relaxed.happens_before(4, 7));
    assert!((3..6).all(|moment| relaxed.moment_exists(moment) == (moment == 4)));
}

#[test]
fn execution_between_two_fences() {
    let release = fence(0, RELEASE).make_available();
    let acquire = fence(1, ACQUIRE).make_visible();
    let table = between(&[release, control(0), control(1), acquire]);
    assert_eq!(check(&table), "race-free");
    let state = checked(&table);
    assert!(state.synchronizes_with(1, 4) && !state.synchronizes_with(4, 1));
    assert_eq!(state.control_barrier(1, 4), Some((2, 3)));
    // The memory scope of a barrier that is neither end isn't asked for.
    let narrow = |agent| control(agent).scope(INVOCATION);
    let table = between(&[release, narrow(0), narrow(1), acquire]);
    assert_eq!(check(&table), "race-free");
    // A fence on the wrong side of its barrier.
    let table = between(&[control(0), release, control(1), acquire]);
    assert_eq!(check(&table), "race 0 5 0");
    let table = between(&[release, control(0), acquire, control(1)]);
    assert_eq!(check(&table), "race 0 5 0");
}

#[test]
fn a_fence_and_a_control_barrier_with_semantics() {
    let release = fence(0, RELEASE).make_available();
    let acquire = fence(1, ACQUIRE).make_visible();
    let table = between(&[release, control(0), full(1)]);
    assert_eq!(check(&table), "race-free");
    let table = between(&[full(0), control(1), acquire]);
    assert_eq!(check(&table), "race-free");
}

#[test]
fn instances_are_told_apart() {
    let other = Row {
        start: 10,
        ..full(1)
    };
    assert_eq!(check(&between(&[full(0), other])), "race 0 3 0");
    // Each waits in an instance of its own, and a third agent in both.
    let third = |instance| Row {
        start: instance,
        agent: 2,
        ..control(0)
    };
    let mut table = between(&[full(0), third(9), third(10), other]);
    table.agents.push([0, 0, 2]);
    assert_eq!(check(&table), "race 0 5 0");
    // With semantics, the third hands on.
    let third = |instance| Row {
        start: instance,
        agent: 2,
        ..full(0)
    };
    let mut table = between(&[full(0), third(9), third(10), other]);
    table.agents.push([0, 0, 2]);
    assert_eq!(check(&table), "race-free");
}

#[test]
fn memory_scopes_must_hold_both_agents() {
    let narrow = |row: Row| row.scope(SUBGROUP);
    assert_eq!(check(&between(&[narrow(full(0)), full(1)])), "race 0 3 0");
    assert_eq!(check(&between(&[full(0), narrow(full(1))])), "race 0 3 0");
    let mut table = between(&[full(0), full(1)].map(|row| row.scope(DEVICE)));
    assert_eq!(check(&table), "race-free");
    // The memory scope alone may be too narrow for two workgroups.
    table.agents[1] = [0, 1, 1];
    for row in [1, 2] {
        table.rows[row].class = FAMILY;
    }
    assert_eq!(check(&table), "race-free");
    table.rows[1].scope = WORKGROUP;
    assert_eq!(check(&table), "race 0 3 0");
}

#[test]
fn classes_are_those_of_both_ends() {
    let of_classes = |agent, classes| full(agent).order(BOTH, classes);
    let table = between(&[of_classes(0, IMAGE), of_classes(1, UNIFORM)]);
    assert_eq!(check(&table), "race 0 3 0");
    let table = between(&[of_classes(0, IMAGE | UNIFORM), of_classes(1, UNIFORM)]);
    assert_eq!(check(&table), "race-free");
}

#[test]
fn a_control_barrier_is_a_fence_beside_atomics() {
    let rows = [
        control(0).order(RELEASE, UNIFORM).make_available(),
        flag(Row::atomic_write(0, 1)),
        flag(Row::atomic_read(1, 2)),
        Row::control_barrier(1, WORKGROUP, 10)
            .order(ACQUIRE, UNIFORM)
            .make_visible(),
    ];
    assert_eq!(check(&between(&rows)), "race-free");
}

#[test]
fn refusal_5_reads_byte_6_as_an_execution_scope() {
    let of_scope = |scope| check(&between(&[Row::control_barrier(0, scope, 9)]));
    assert_eq!(of_scope(4), "race 0 2 0");
    assert_eq!(of_scope(5), "refused 5 1");
    let of_kind = |kind| {
        let mut table = between(&[control(0)]);
        table.rows[1].kind = kind;
        check(&table)
    };
    assert_eq!(of_kind(6), "race 0 2 0");
    assert_eq!(of_kind(7), "refused 5 1");
}

#[test]
fn refusal_6_of_control_barriers() {
    let with = |row: Row| check(&between(&[row]));
    assert_eq!(with(control(0)), "race 0 2 0");
    assert_eq!(with(full(0)), "race 0 2 0");
    let misfits = [
        control(0).order(RELAXED, UNIFORM),
        control(0).order(BOTH, 0),
        control(0).make_available(),
        control(0).order(ACQUIRE, UNIFORM).make_available(),
        control(0).order(RELEASE, UNIFORM).make_visible(),
        control(0).reference(1),
        Row {
            flags: 1,
            ..control(0)
        },
        Row {
            length: 4,
            ..control(0)
        },
        Row {
            source: 0,
            ..control(0)
        },
        Row {
            rank: 1,
            ..control(0)
        },
    ];
    for row in misfits {
        assert_eq!(with(row), "refused 6 1", "{row:?}");
    }
}

#[test]
fn refusal_14_at_the_later_row() {
    let with = |first: Row, second: Row| check(&between(&[first, second]));
    assert_eq!(with(control(0), control(0)), "refused 14 2");
    let wide = Row::control_barrier(1, DEVICE, 9);
    assert_eq!(with(control(0), wide), "refused 14 2");
    let near = |agent| Row::control_barrier(agent, SUBGROUP, 9);
    assert_eq!(with(near(0), near(1)), "refused 14 2");
    // Another instance is another matter.
    let other = Row {
        start: 8,
        ..near(1)
    };
    assert_eq!(with(near(0), other), "race 0 3 0");
    let alone = |agent| Row::control_barrier(agent, INVOCATION, 9);
    assert_eq!(with(alone(0), alone(1)), "refused 14 2");
    assert_eq!(check(&between(&[alone(0)])), "race 0 2 0");
}

#[test]
fn refusal_14_comes_right_after_10() {
    let mut rows = vec![flag(Row::atomic_write(0, 1)), control(0), control(0)];
    rows.push(flag(Row::atomic_write(0, 1)));
    assert_eq!(check(&Table::of_one_workgroup(1, &rows)), "refused 14 2");
    rows.swap(2, 3);
    assert_eq!(check(&Table::of_one_workgroup(1, &rows)), "refused 10 2");
}
