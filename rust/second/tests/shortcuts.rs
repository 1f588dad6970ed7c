//! Tables that tell the rules from shortcuts which look alike.

mod common;

use common::*;
use tables::builder::classes::{IMAGE, UNIFORM, WORKGROUP};
use tables::builder::scope;
use tables::{Build, Row, Table, INITIAL};

/// A Uniform read, a flag released and acquired for the classes, a write.
fn read_then_write(classes: u8, write: Row) -> Table {
    Table::of_one_workgroup(
        2,
        &[
            Row::read(0, INITIAL),
            flag(Row::atomic_write(0, 1)).release(classes),
            flag(Row::atomic_read(1, 1)).acquire(classes),
            write,
        ],
    )
}

#[test]
fn happens_before_is_not_closed_over_program_order() {
    let table = read_then_write(WORKGROUP, Row::write(1));
    assert_eq!(check(&table), "race 0 3 0");
    let table = read_then_write(WORKGROUP | UNIFORM, Row::write(1));
    assert_eq!(check(&table), "race-free");
}

#[test]
fn single_classes_are_not_enough() {
    let image_write = Row::write(1).reference(3).class(2);
    let table = read_then_write(UNIFORM | IMAGE, image_write);
    assert_eq!(check(&table), "race-free");
    let table = read_then_write(UNIFORM, image_write);
    assert_eq!(check(&table), "race 0 3 0");
    let table = read_then_write(IMAGE, image_write);
    assert_eq!(check(&table), "race 0 3 0");
}

/// Four bytes written, then two of them written and made available, then
/// another agent's access.
fn two_of_four_bytes(last: Row) -> Table {
    let available = Row::write(0)
        .at(0, 2)
        .make_available()
        .scope(scope::WORKGROUP);
    Table::of_one_workgroup(
        2,
        &[
            Row::write(0),
            available,
            flag(Row::atomic_write(0, 1)).release(UNIFORM),
            acquire_flag(1, 2),
            last,
        ],
    )
}

#[test]
fn order_is_held_byte_by_byte() {
    assert_eq!(check(&two_of_four_bytes(Row::write(1))), "race 0 4 2");
    let inside = Row::write(1).at(0, 2);
    assert_eq!(check(&two_of_four_bytes(inside)), "race-free");
    let read_inside = Row::read(1, 1).at(0, 2);
    assert_eq!(check(&two_of_four_bytes(read_inside)), "race-free");
    let read_outside = Row::read(1, 0).at(2, 2);
    assert_eq!(check(&two_of_four_bytes(read_outside)), "race 0 4 2");
    let read_across = Row::read(1, 0).at(1, 2);
    assert_eq!(check(&two_of_four_bytes(read_across)), "overwritten 4 1 1");
}

#[test]
fn rmw_has_no_from_reads_to_itself() {
    let rows = [Row::atomic_write(0, 1), Row::rmw(1, 0, 2)];
    assert_eq!(check(&Table::of_one_workgroup(2, &rows)), "race-free");
    let rows = [Row::rmw(0, INITIAL, 1), Row::rmw(1, 0, 2)];
    assert_eq!(check(&Table::of_one_workgroup(2, &rows)), "race-free");
}
