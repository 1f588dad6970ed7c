//! The tables of the folder `examples`, by name.

use crate::builder::classes::{IMAGE, UNIFORM, WORKGROUP};
use crate::builder::flags::{MAKE_AVAILABLE, MAKE_VISIBLE};
use crate::builder::{kind, order, scope, sort, Build, Row, Table, BLANK, INITIAL};

/// A file's name without its ending, and its bytes.
pub struct Example {
    pub name: &'static str,
    pub bytes: Vec<u8>,
}

/// Every example.
pub fn examples() -> Vec<Example> {
    let mut version_4 = Table::default().bytes();
    version_4[4] = 4;
    let tables = story()
        .into_iter()
        .chain(message_passing())
        .chain(control_barriers())
        .chain(sequences())
        .chain(counted_ranks())
        .chain(chains())
        .chain(by_class_and_byte())
        .chain(atomic_payload())
        .chain(inconsistent())
        .chain(fills())
        .chain(forms())
        .chain(hosts());
    let mut examples: Vec<Example> = tables
        .map(|(name, table)| Example {
            name,
            bytes: table.bytes(),
        })
        .collect();
    examples.push(Example {
        name: "version-4",
        bytes: version_4,
    });
    examples
}

type Named = (&'static str, Table);

/// A slot is given to a tenant: one invocation writes the tenant's number and
/// the slot's data, another one reads both once the flag is up.
fn slot_given_away() -> Table {
    let number = |row: Row| row.at(0, 4).reference(1);
    let data = |row: Row| row.at(16, 8).reference(2);
    let flag = |row: Row| row.at(64, 4).reference(3).scope(scope::FAMILY);
    Table::new(
        &[[0, 0, 0], [0, 1, 0]],
        &[
            number(Row::write(0)),
            data(Row::write(0)),
            flag(Row::atomic_write(0, 1))
                .release(UNIFORM)
                .make_available(),
            flag(Row::atomic_read(1, 2)).acquire(UNIFORM).make_visible(),
            number(Row::read(1, 0)),
            data(Row::read(1, 1)),
        ],
    )
}

fn story() -> Vec<Named> {
    let mended = slot_given_away();
    let mut leak = mended.clone();
    leak.rows[2].flags &= !MAKE_AVAILABLE;
    vec![("leak", leak), ("leak-mended", mended)]
}

/// A flag is an atomic place of its own: bytes 4 to 7, reference 2.
fn flag(row: Row) -> Row {
    row.at(4, 4).reference(2).scope(scope::WORKGROUP)
}

/// Data written, a flag released, the flag acquired, the data read.
fn p() -> Table {
    Table::of_one_workgroup(
        2,
        &[
            Row::write(0),
            flag(Row::atomic_write(0, 1))
                .release(UNIFORM)
                .make_available(),
            flag(Row::atomic_read(1, 1)).acquire(UNIFORM).make_visible(),
            Row::read(1, 0),
        ],
    )
}

fn changed(mut table: Table, change: impl Fn(&mut Table)) -> Table {
    change(&mut table);
    table
}

fn message_passing() -> Vec<Named> {
    vec![
        ("p", p()),
        (
            "p-not-visible",
            changed(p(), |table| table.rows[2].flags &= !MAKE_VISIBLE),
        ),
        (
            "p-private",
            changed(p(), |table| table.rows[3] = table.rows[3].private()),
        ),
        (
            "p-two-workgroups",
            changed(p(), |table| table.agents[1] = [0, 1, 1]),
        ),
        ("barriers", barriers()),
    ]
}

/// P with barriers in the place of the flag's own order.
fn barriers() -> Table {
    let barrier = |agent, order| Row::barrier(agent, order, UNIFORM).scope(scope::WORKGROUP);
    Table::of_one_workgroup(
        2,
        &[
            Row::write(0),
            barrier(0, order::RELEASE).make_available(),
            flag(Row::atomic_write(0, 1)),
            flag(Row::atomic_read(1, 2)),
            barrier(1, order::ACQUIRE).make_visible(),
            Row::read(1, 0),
        ],
    )
}

/// A write, a control barrier of two agents with the rows around it, a read.
fn around_control(order: u8, classes: u8, before: Option<Row>, after: Option<Row>) -> Table {
    let control = |agent| {
        let row = Row::control_barrier(agent, scope::WORKGROUP, 1).scope(scope::WORKGROUP);
        let row = row.order(order, classes);
        if order == order::BOTH {
            row.make_available().make_visible()
        } else {
            row
        }
    };
    let mut rows = vec![Row::write(0)];
    rows.extend(before);
    rows.extend([control(0), control(1)]);
    rows.extend(after);
    rows.push(Row::read(1, 0));
    Table::of_one_workgroup(2, &rows)
}

fn control_barriers() -> Vec<Named> {
    let fence = |agent, order| Row::barrier(agent, order, UNIFORM).scope(scope::WORKGROUP);
    let before = fence(0, order::RELEASE).make_available();
    let after = fence(1, order::ACQUIRE).make_visible();
    let full = around_control(order::BOTH, UNIFORM, None, None);
    let fenced = around_control(order::RELAXED, 0, Some(before), Some(after));
    let astray = changed(full.clone(), |table| table.agents[1] = [0, 1, 1]);
    vec![
        ("control", full),
        (
            "control-execution",
            around_control(order::RELAXED, 0, None, None),
        ),
        ("control-fences", fenced),
        ("control-two-workgroups", astray),
    ]
}

/// P with a row put in as row 2 that the acquire reads.
fn p_with(row: Row) -> Table {
    let mut table = p();
    table.insert(2, row);
    table.rows[3].source = 2;
    table
}

fn sequences() -> Vec<Named> {
    let by_third_agent = |row| changed(p_with(row), |table| table.agents.push([0, 0, 2]));
    vec![
        ("q", p_with(flag(Row::atomic_write(0, 2)))),
        ("q-rmw", by_third_agent(flag(Row::rmw(2, 1, 2)))),
        ("q-cut", by_third_agent(flag(Row::atomic_write(2, 2)))),
    ]
}

/// Q with a third agent's read-modify-write, the counter running out between
/// the release and it.
fn counted_ranks() -> Vec<Named> {
    let with_ranks = |first, second| {
        changed(p_with(flag(Row::rmw(2, 1, second))), |table| {
            table.agents.push([0, 0, 2]);
            table.rows[1].rank = first;
        })
    };
    vec![
        ("counted", with_ranks(65535, 0).counted()),
        ("counted-plain", with_ranks(65535, 0)),
        ("counted-too-far", with_ranks(65535, 32767).counted()),
    ]
}

/// A write that goes by two agents: the writer releases a flag in one scope,
/// another agent acquires it and releases a second flag in another scope, and
/// a third acquires that and reads.
fn by_two_agents(agents: [[u16; 3]; 3], first: u8, second: u8) -> Table {
    let second_flag = |row: Row| row.at(8, 4).reference(3).scope(second);
    let release = |row: Row| row.release(UNIFORM).make_available();
    let acquire = |row: Row| row.acquire(UNIFORM).make_visible();
    let first_flag = |row: Row| flag(row).scope(first);
    Table::new(
        &agents,
        &[
            Row::write(0),
            release(first_flag(Row::atomic_write(0, 1))),
            acquire(first_flag(Row::atomic_read(1, 1))),
            release(second_flag(Row::atomic_write(1, 1))),
            acquire(second_flag(Row::atomic_read(2, 3))),
            Row::read(2, 0),
        ],
    )
}

fn chains() -> Vec<Named> {
    let with_writer = [[0, 0, 0], [0, 0, 1], [0, 1, 0]];
    let with_reader = [[0, 1, 0], [0, 0, 1], [0, 0, 0]];
    let (near, far) = (scope::WORKGROUP, scope::DEVICE);
    let apart = changed(by_two_agents(with_writer, near, far), |table| {
        table.agents[1] = [0, 1, 1];
        table.rows[1].scope = far;
        table.rows[2].scope = far;
        table.rows[0] = table.rows[0].make_available().scope(near);
        table.rows[1].flags &= !MAKE_AVAILABLE;
    });
    vec![
        ("chain-available", by_two_agents(with_writer, near, far)),
        ("chain-visible", by_two_agents(with_reader, far, near)),
        ("chain-apart", apart),
    ]
}

/// A Uniform read, a flag released and acquired for the classes, a write.
fn read_then_write(classes: u8, write: Row) -> Table {
    Table::of_one_workgroup(
        2,
        &[
            Row::read(0, INITIAL),
            flag(Row::atomic_write(0, 1)).release(classes),
            flag(Row::atomic_read(1, 1)).acquire(classes),
            write,
        ],
    )
}

/// Four bytes written, then two of them written and made available, then
/// another agent's access.
fn two_of_four_bytes(last: Row) -> Table {
    let available = Row::write(0)
        .at(0, 2)
        .make_available()
        .scope(scope::WORKGROUP);
    Table::of_one_workgroup(
        2,
        &[
            Row::write(0),
            available,
            flag(Row::atomic_write(0, 1)).release(UNIFORM),
            flag(Row::atomic_read(1, 2)).acquire(UNIFORM).make_visible(),
            last,
        ],
    )
}

fn by_class_and_byte() -> Vec<Named> {
    let image_write = Row::write(1).reference(3).class(2);
    vec![
        ("other-class", read_then_write(WORKGROUP, Row::write(1))),
        ("two-classes", read_then_write(UNIFORM | IMAGE, image_write)),
        ("half-available", two_of_four_bytes(Row::write(1))),
    ]
}

/// Atomics that carry the data and not only the flag: the appendix has them
/// make their own bytes available and visible, these rules don't.
fn atomic_payload() -> Vec<Named> {
    let wide = |row: Row| row.scope(scope::DEVICE);
    let flag = |row: Row| wide(flag(row));
    let race = [
        wide(Row::atomic_write(0, 1)),
        flag(Row::atomic_write(0, 1)).release(UNIFORM),
        flag(Row::atomic_read(1, 1)).acquire(UNIFORM),
        wide(Row::read(1, 0).make_visible()),
    ];
    let older = [
        wide(Row::atomic_write(2, 1)),
        wide(Row::atomic_write(0, 2)),
        flag(Row::atomic_write(0, 1)).release(UNIFORM),
        flag(Row::atomic_read(1, 2)).acquire(UNIFORM),
        wide(Row::atomic_read(1, 0)),
    ];
    let places = [[0, 0, 0], [0, 1, 0], [0, 2, 0]];
    vec![
        ("atomic-payload-race", Table::new(&places[..2], &race)),
        ("atomic-payload-older", Table::new(&places, &older)),
    ]
}

fn inconsistent() -> Vec<Named> {
    let initial = changed(p(), |table| table.rows[3].source = INITIAL);
    let lost_update = [
        Row::atomic_write(0, 1),
        Row::rmw(1, 0, 2),
        Row::rmw(2, 0, 3),
    ];
    let stale = changed(p(), |table| {
        table.insert(1, Row::write(0));
        table.rows[4].source = 0;
    });
    vec![
        ("p-initial", initial),
        ("lost-update", Table::of_one_workgroup(3, &lost_update)),
        ("overwritten", stale),
    ]
}

fn fills() -> Vec<Named> {
    let leak_blank = changed(slot_given_away(), |table| {
        table.rows[2].flags &= !MAKE_AVAILABLE;
        table.rows[4].source = BLANK;
    });
    let last_write = changed(p(), |table| {
        table.insert(1, Row::write(0));
        table.rows[4].source = BLANK;
    });
    let before_any = [Row::read(0, BLANK), Row::write(0), Row::read(0, BLANK)];
    let two_halves = [
        Row::write(0).at(0, 2),
        Row::write(0).at(2, 2),
        Row::read(0, BLANK),
    ];
    vec![
        ("fill", changed(p(), |table| table.rows[3].source = BLANK)),
        ("fill-last-write", last_write),
        ("fill-initial", Table::of_one_workgroup(1, &before_any)),
        ("fill-none", Table::of_one_workgroup(1, &two_halves)),
        ("fill-race", leak_blank),
    ]
}

/// A host's write that a shader reads: made available to the host's domain,
/// carried to the device's, made visible from there, each step depending on
/// the one before.
fn hosts() -> Vec<Named> {
    let sorts = [sort::HOST, sort::QUEUE, sort::SHADER];
    let in_line = |rows: &[Row]| {
        let dependencies = (1..rows.len() as u16).map(|row| [row - 1, row]);
        Table::with_sorts(&sorts, rows, &dependencies.collect::<Vec<_>>())
    };
    let queue = |kind| Row::queue(1, kind);
    let upload = [
        Row::write(0).private(),
        queue(kind::AVAILABLE_TO_HOST),
        queue(kind::HOST_TO_DEVICE),
        queue(kind::VISIBLE_FROM_DEVICE),
        Row::read(2, 0).private().reference(2),
    ];
    let read_back = [
        Row::write(2).private().reference(2),
        queue(kind::AVAILABLE_TO_DEVICE),
        queue(kind::DEVICE_TO_HOST),
        queue(kind::VISIBLE_FROM_HOST),
        Row::read(0, 0).private(),
    ];
    let no_domain = changed(in_line(&upload), |table| {
        table.rows.remove(2);
        table.dependencies.truncate(3);
    });
    let other_row = changed(in_line(&upload), |table| {
        table.insert(1, Row::write(0).private().at(8, 4));
        table.dependencies[0][0] = 1;
    });
    let read_first = in_line(&[
        Row::read(0, INITIAL).private(),
        Row::write(2).private().reference(2),
    ]);
    let host_atomic = in_line(&[Row::write(0).private(), Row::atomic_write(0, 1)]);
    vec![
        ("upload", in_line(&upload)),
        ("upload-no-domain", no_domain),
        ("upload-other-row", other_row),
        ("read-back", in_line(&read_back)),
        ("host-read", read_first),
        ("host-atomic", host_atomic),
    ]
}

fn forms() -> Vec<Named> {
    let too_long = [Row::write(0), Row::read(0, INITIAL).at(100, 17)];
    let odd_atomic = [Row::write(0), Row::atomic_write(0, 1).at(100, 3)];
    let wrong_class = [Row::write(0), Row::write(0).at(8, 4).class(2)];
    vec![
        ("empty", Table::default()),
        ("too-long", Table::of_one_workgroup(1, &too_long)),
        ("odd-atomic", Table::of_one_workgroup(1, &odd_atomic)),
        ("wrong-class", Table::of_one_workgroup(1, &wrong_class)),
    ]
}
