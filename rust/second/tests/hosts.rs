//! Version 3: host and queue agents, dependencies, and the order that goes
//! through the host's and the device's domain.

mod common;

use common::*;
use second::{AcceptsAnswer, Derivation, DomainSteps, State};
use tables::builder::classes::{UNIFORM, WORKGROUP};
use tables::builder::kind::*;
use tables::builder::order::{ACQUIRE, BOTH, RELEASE};
use tables::builder::sort::{HOST, QUEUE, SHADER};
use tables::{Build, Row, Table, BLANK, INITIAL};

/// Agent 0 is a host, 1 a queue, 2 and 3 are shaders, 4 a host, 5 a queue.
const SORTS: [u16; 6] = [HOST, QUEUE, SHADER, SHADER, HOST, QUEUE];

/// Each row depends on the one before it.
fn in_line(rows: &[Row]) -> Table {
    let dependencies: Vec<[u16; 2]> = (1..rows.len() as u16).map(|row| [row - 1, row]).collect();
    Table::with_sorts(&SORTS, rows, &dependencies)
}

fn queue(kind: u8) -> Row {
    Row::queue(1, kind)
}

fn host_write() -> Row {
    Row::write(0).private()
}

fn shader_read(source: u16) -> Row {
    Row::read(2, source).private().reference(7)
}

/// A host write made available, carried over, made visible, read by a shader.
fn upload() -> Table {
    in_line(&[
        host_write(),
        queue(AVAILABLE_TO_HOST),
        queue(HOST_TO_DEVICE),
        queue(VISIBLE_FROM_DEVICE),
        shader_read(0),
    ])
}

#[test]
fn an_upload() {
    assert_eq!(check(&upload()), "race-free");
    let steps = DomainSteps {
        availability: 1,
        domain_operation: Some(2),
        visibility: Some(3),
    };
    let state = checked(&upload());
    assert_eq!(state.domain_steps(0, 4), Some(steps));
    assert_eq!(state.system_rules(0, 4), [false, true]);
    assert_eq!(state.system_rules(4, 0), [false, false]);
}

#[test]
fn an_upload_needs_every_step() {
    for missing in 1..=3 {
        let mut rows = upload().rows;
        rows.remove(missing);
        assert_eq!(check(&in_line(&rows)), "race 0 3 0", "{missing}");
    }
    for missing in 0..4 {
        let mut table = upload();
        table.dependencies.remove(missing);
        let answer = check(&table);
        // Rows 1 to 3 are in their queue's program order, but a dependency
        // that ends at row 1 doesn't go on from there by program order: it
        // needn't, each arrow stands alone.
        let is_in_queue = missing == 1 || missing == 2;
        let expected = if is_in_queue {
            "race-free"
        } else {
            "race 0 4 0"
        };
        assert_eq!(answer, expected, "{missing}");
    }
}

#[test]
fn steps_in_the_program_order_of_a_queue() {
    let mut table = upload();
    table.dependencies = vec![[0, 1], [3, 4]];
    assert_eq!(check(&table), "race-free");
    // Two queues have no program order between them.
    table.rows[2].agent = 5;
    assert_eq!(check(&table), "race 0 4 0");
    table.dependencies.extend([[1, 2], [2, 3]]);
    assert_eq!(check(&table), "race-free");
    // The page's order is that of one queue.
    let mut table = upload();
    table.dependencies = vec![[0, 1], [3, 4]];
    table.rows.swap(1, 2);
    table.dependencies[0] = [0, 2];
    assert_eq!(check(&table), "race 0 4 0");
}

#[test]
fn an_upload_the_wrong_way() {
    for (place, kind) in [
        (1, AVAILABLE_TO_DEVICE),
        (2, DEVICE_TO_HOST),
        (3, VISIBLE_FROM_HOST),
    ] {
        let mut table = upload();
        table.rows[place].kind = kind;
        assert_eq!(check(&table), "race 0 4 0", "{kind}");
    }
}

#[test]
fn a_read_back() {
    let table = in_line(&[
        Row::write(2),
        queue(AVAILABLE_TO_DEVICE),
        queue(DEVICE_TO_HOST),
        queue(VISIBLE_FROM_HOST),
        Row::read(0, 0).reference(9),
    ]);
    assert_eq!(check(&table), "race-free");
    let mut blank = table.clone();
    blank.rows[4].source = BLANK;
    assert_eq!(fill(&blank), "filled 65535 65535 65535 65535 0");
    let mut initial = table.clone();
    initial.rows[4].source = INITIAL;
    assert_eq!(check(&initial), "cycle 2 rows 0 4 edges 1 4");
}

#[test]
fn one_domain_needs_no_domain_operation() {
    let shaders = in_line(&[
        Row::write(2).private(),
        queue(AVAILABLE_TO_DEVICE),
        queue(VISIBLE_FROM_DEVICE),
        Row::read(3, 0).private(),
    ]);
    assert_eq!(check(&shaders), "race-free");
    let hosts = in_line(&[
        host_write(),
        queue(AVAILABLE_TO_HOST),
        queue(VISIBLE_FROM_HOST),
        Row::read(4, 0).private(),
    ]);
    assert_eq!(check(&hosts), "race-free");
    let mut mixed = hosts.clone();
    mixed.rows[2].kind = VISIBLE_FROM_DEVICE;
    assert_eq!(check(&mixed), "race 0 3 0");
    // One host with itself needs neither, by one reference.
    let alone = Table::with_sorts(&SORTS, &[host_write(), Row::read(0, 0).private()], &[]);
    assert_eq!(check(&alone), "race-free");
    let mut other = alone.clone();
    other.rows[1].reference = 5;
    assert_eq!(check(&other), "race 0 1 0");
}

#[test]
fn a_write_after_a_write_needs_no_visibility() {
    let table = in_line(&[
        host_write(),
        queue(AVAILABLE_TO_HOST),
        queue(HOST_TO_DEVICE),
        Row::write(2).private().reference(7),
    ]);
    assert_eq!(check(&table), "race-free");
    // An RMW reads as well.
    let mut rmw = table.clone();
    rmw.rows[3] = Row::rmw(2, 0, 1).reference(7);
    assert_eq!(check(&rmw), "race 0 3 0");
    rmw.insert(3, queue(VISIBLE_FROM_DEVICE));
    rmw.dependencies = vec![[0, 1], [1, 2], [2, 3], [3, 4]];
    assert_eq!(check(&rmw), "race-free");
    // As the first, it writes as well: the read case isn't its.
    let first = in_line(&[Row::rmw(2, INITIAL, 1), Row::write(0).private()]);
    assert_eq!(check(&first), "race 0 1 0");
    let first = in_line(&[
        Row::rmw(2, INITIAL, 1),
        queue(AVAILABLE_TO_DEVICE),
        queue(DEVICE_TO_HOST),
        Row::write(0).private(),
    ]);
    assert_eq!(check(&first), "race-free");
}

#[test]
fn a_read_before_a_write_needs_dependencies_alone() {
    let read = Row::read(0, INITIAL).private();
    let write = Row::write(2).private().reference(7);
    assert_eq!(check(&in_line(&[read, write])), "race-free");
    let table = in_line(&[read, queue(HOST_TO_DEVICE), write]);
    assert_eq!(check(&table), "race-free");
    // Program order is none of the closure.
    let rows = [read, queue(AVAILABLE_TO_HOST), queue(HOST_TO_DEVICE), write];
    let table = Table::with_sorts(&SORTS, &rows, &[[0, 1], [2, 3]]);
    assert_eq!(check(&table), "race 0 3 0");
}

#[test]
fn dependencies_go_on_with_releases_and_acquires_of_one_class_set() {
    let with = |released: u8, acquired: u8| {
        let rows = [
            Row::write(2).private(),
            Row::barrier(2, RELEASE, released),
            queue(AVAILABLE_TO_DEVICE),
            queue(VISIBLE_FROM_DEVICE),
            Row::barrier(3, ACQUIRE, acquired),
            Row::read(3, 0).private(),
        ];
        let dependencies = [[1, 2], [2, 3], [3, 4]];
        check(&Table::with_sorts(&SORTS, &rows, &dependencies))
    };
    assert_eq!(with(UNIFORM, UNIFORM), "race-free");
    // Each arrow for itself, so that the sets may differ.
    assert_eq!(with(UNIFORM, UNIFORM | WORKGROUP), "race-free");
    assert_eq!(with(WORKGROUP, UNIFORM), "race 0 5 0");
    assert_eq!(with(UNIFORM, WORKGROUP), "race 0 5 0");
}

#[test]
fn happens_before_is_not_closed_over_program_order() {
    let rows = [
        host_write(),
        Row::write(0).private().at(8, 4),
        queue(AVAILABLE_TO_HOST),
        queue(HOST_TO_DEVICE),
        queue(VISIBLE_FROM_DEVICE),
        shader_read(0),
    ];
    let late = [[1, 2], [2, 3], [3, 4], [4, 5]];
    let table = Table::with_sorts(&SORTS, &rows, &late);
    assert_eq!(check(&table), "race 0 5 0");
    let own = [[0, 2], [2, 3], [3, 4], [4, 5]];
    let table = Table::with_sorts(&SORTS, &rows, &own);
    assert_eq!(check(&table), "race-free");
}

#[test]
fn scopes_hold_between_shaders_only() {
    let flags = |row: Row| row.scope(4);
    let rows = [
        flags(Row::write(0).make_available()),
        flags(Row::read(2, 0).make_visible()),
    ];
    let table = Table::with_sorts(&SORTS, &rows, &[[0, 1]]);
    assert_eq!(check(&table), "race 0 1 0");
    let state = checked(&table);
    assert!(state.happens_before(1, 4) && state.moment_exists(2));
    assert!(!state.share_scope(0, 0, 0) && !state.share_scope(0, 2, 4));
    assert!(!state.share_scope(1, 1, 4) && state.share_scope(2, 3, 4));
    // Between shaders everything is as ever.
    let rows = [
        Row::write(2),
        Row::atomic_write(2, 1).at(8, 4).reference(5),
        Row::atomic_read(3, 1).at(8, 4).reference(5),
        Row::read(3, 0),
    ];
    let mut table = Table::with_sorts(&SORTS, &rows, &[]);
    table.rows[1] = table.rows[1].release(UNIFORM).make_available();
    table.rows[2] = table.rows[2].acquire(UNIFORM).make_visible();
    assert_eq!(check(&table), "race-free");
}

#[test]
fn ranks_are_counted() {
    let rows = [Row::atomic_write(2, 65535), Row::rmw(2, 0, 0)];
    let table = Table::with_sorts(&SORTS, &rows, &[]);
    assert_eq!(check(&table), "race-free");
    let mut table = table;
    table.rows[1].rank = 32767;
    assert_eq!(check(&table), "refused 15 1");
}

#[test]
fn derivations_have_a_fourth_case() {
    let table = upload().bytes();
    let read = |first, second, classes, steps: &[u16]| {
        let chain = Derivation::Chain { classes, steps };
        State::new().accepts(&table, first, second, chain)
    };
    let all = [2052, 2055, 2058, 2061];
    for classes in 1..=15 {
        assert_eq!(read(1, 13, classes, &all), AcceptsAnswer::Accepted);
    }
    assert_eq!(read(1, 13, 16, &all), AcceptsAnswer::NotAccepted);
    assert_eq!(read(1, 13, 1, &all[1..]), AcceptsAnswer::NotAccepted);
    for case in [0, 1, 2, 3, 5] {
        let step = [512 * case + 4];
        assert_eq!(read(1, 4, 1, &step), AcceptsAnswer::NotAccepted);
    }
}

#[test]
fn a_row_may_depend_on_itself() {
    let table = Table::with_sorts(&SORTS, &[host_write()], &[[0, 0]]);
    assert_eq!(check(&table), "race-free");
    assert!(checked(&table).happens_before(1, 1));
    // Round in circles: the first of two writes both before and after.
    let rows = [Row::read(0, INITIAL), Row::write(2)];
    let table = Table::with_sorts(&SORTS, &rows, &[[0, 1], [1, 0]]);
    assert_eq!(check(&table), "race-free");
}

/// Checks an upload with one change to its bytes.
fn check_changed(change: impl Fn(&mut Vec<u8>)) -> String {
    let mut bytes = upload().bytes();
    change(&mut bytes);
    check_bytes(&bytes)
}

/// Bytes 0 to 3 as long as the table is.
fn recount(bytes: &mut [u8]) {
    let following = (bytes.len() as u32 - 4).to_be_bytes();
    bytes[..4].copy_from_slice(&following);
}

#[test]
fn refusal_4_counts_the_dependencies() {
    let count_at = 8 + 8 * 6 + 16 * 5;
    assert_eq!(check_changed(|_| ()), "race-free");
    assert_eq!(check_changed(|bytes| bytes.push(0)), "refused 4 0");
    assert_eq!(
        check_changed(|bytes| bytes[count_at + 1] = 3),
        "refused 4 0"
    );
    // The count is missing, in part or in whole, though the rest fits.
    for length in [count_at, count_at + 1] {
        let cut = |bytes: &mut Vec<u8>| {
            bytes.truncate(length);
            recount(bytes);
        };
        assert_eq!(check_changed(cut), "refused 4 0", "{length}");
    }
    let none = |bytes: &mut Vec<u8>| {
        bytes.truncate(count_at + 2);
        bytes[count_at + 1] = 0;
        recount(bytes);
    };
    assert_eq!(check_changed(none), "race 0 4 0");
    // The layout of version 1 with that version's byte.
    let mut bytes = from_hex(TABLE_P);
    bytes[4] = 3;
    assert_eq!(check_bytes(&bytes), "refused 4 0");
}

#[test]
fn refusals_16_to_18() {
    let mut table = upload();
    table.sorts[5] = 3;
    table.dependencies[0][1] = 5;
    assert_eq!(check(&table), "refused 16 0");
    table.sorts[5] = 2;
    assert_eq!(check(&table), "refused 18 0");
    table.dependencies[0] = [5, 1];
    assert_eq!(check(&table), "refused 18 0");
    table.dependencies[0] = [0, 4];
    assert_eq!(check(&table), "race 0 4 0");
    table.dependencies.extend([[0, 1]; 60]);
    assert_eq!(check(&table), "race-free");
    table.dependencies.push([9, 9]);
    assert_eq!(check(&table), "refused 17 0");
    // More than 64 in a table of a wrong length.
    let mut bytes = table.bytes();
    bytes.push(0);
    assert_eq!(check_bytes(&bytes), "refused 4 0");
    // Before the rows' 5.
    table.rows[0].kind = 200;
    assert_eq!(check(&table), "refused 17 0");
    table.dependencies.clear();
    assert_eq!(check(&table), "refused 5 0");
}

#[test]
fn refusal_5_starts_at_kind_13() {
    for (kind, answer) in [
        (12, "race 0 4 0"),
        (13, "refused 5 3"),
        (255, "refused 5 3"),
    ] {
        let mut table = upload();
        table.rows[3].kind = kind;
        assert_eq!(check(&table), answer, "{kind}");
    }
    // In other versions it starts at 7 still.
    for version in [1, 2] {
        let mut table = Table::of_one_workgroup(1, &[queue(AVAILABLE_TO_HOST)]);
        table.rows[0].agent = 0;
        table.version = version;
        assert_eq!(check(&table), "refused 5 0");
    }
}

#[test]
fn refusal_19_kinds_by_sort() {
    for kind in 0..=12 {
        let of = |agent: u8| {
            let row = match kind {
                PLAIN_READ => Row::read(agent, INITIAL),
                PLAIN_WRITE => Row::write(agent),
                ATOMIC_READ => Row::atomic_read(agent, INITIAL),
                ATOMIC_WRITE => Row::atomic_write(agent, 1),
                RMW => Row::rmw(agent, INITIAL, 1),
                BARRIER => Row::barrier(agent, BOTH, UNIFORM),
                CONTROL_BARRIER => Row::control_barrier(agent, 2, 1),
                _ => Row::queue(agent, kind),
            };
            check(&Table::with_sorts(&SORTS, &[row], &[]))
        };
        let answer = |fits: bool| if fits { "race-free" } else { "refused 19 0" };
        assert_eq!(of(0), answer(kind <= 1), "host {kind}");
        assert_eq!(of(1), answer(kind >= 7), "queue {kind}");
        assert_eq!(of(2), answer(kind <= 6), "shader {kind}");
    }
}

#[test]
fn refusal_19_comes_after_5_and_before_6_and_20() {
    let of = |row: Row| check(&Table::with_sorts(&SORTS, &[row], &[]));
    assert_eq!(of(Row::queue(2, 7).scope(9)), "refused 5 0");
    assert_eq!(of(Row::queue(2, 7).scope(1)), "refused 19 0");
    assert_eq!(of(Row::write(1).scope(1)), "refused 19 0");
    assert_eq!(of(Row::queue(1, 7).scope(1)), "refused 20 0");
    assert_eq!(of(Row::write(0).scope(1)), "refused 6 0");
}

#[test]
fn refusal_20_fields_of_queue_operations() {
    let fields: [fn(&mut Row); 11] = [
        |row| row.order = 1,
        |row| row.scope = 1,
        |row| row.classes = 1,
        |row| row.flags = 1,
        |row| row.class = 1,
        |row| row.length = 1,
        |row| row.start = 1,
        |row| row.reference = 256,
        |row| row.source = 0,
        |row| row.source = BLANK,
        |row| row.rank = 1,
    ];
    for kind in 7..=12 {
        for field in fields {
            let mut rows = [host_write(), queue(kind)];
            field(&mut rows[1]);
            let table = Table::with_sorts(&SORTS, &rows, &[]);
            assert_eq!(check(&table), "refused 20 1", "{:?}", rows[1]);
        }
    }
}
