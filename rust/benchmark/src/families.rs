//! Tables of 128 rows, each made to be dear for one stage or another.

use tables::builder::classes::{IMAGE, OUTPUT, UNIFORM, WORKGROUP};
use tables::builder::{kind, order, scope, sort};
use tables::{Build, Row, Table, INITIAL, MAX_AGENTS, MAX_ROWS};

const ALL_CLASSES: u8 = UNIFORM + WORKGROUP + IMAGE + OUTPUT;
/// Rows of each agent, where all have as many.
const EACH: usize = MAX_ROWS / MAX_AGENTS;

/// What each is, and its table.
pub fn all() -> Vec<(&'static str, Table)> {
    vec![
        ("one agent, all class sets", one_agent()),
        ("32 agents, all class sets", class_sets()),
        ("RMWs of one sequence", shared(rmws(false))),
        ("the same, up the page", shared(rmws(true))),
        ("atomics on three places", shared(three_places())),
        ("barriers", shared(barriers())),
        ("barriers and relaxed RMWs", shared(between_barriers(false))),
        ("the same, up the page", shared(between_barriers(true))),
        (
            "plain rows with moments of their own",
            shared(own_moments()),
        ),
        ("circles of reads and writes", shared(circles())),
        ("control barriers", shared(control_barriers())),
        ("hosts with 64 dependencies", uploads()),
    ]
}

fn shared(rows: Vec<Row>) -> Table {
    Table::of_one_workgroup(MAX_AGENTS as u16, &rows)
}

fn agent_of(row: usize) -> u8 {
    (row % MAX_AGENTS) as u8
}

/// Class sets in turn, none of them empty.
fn class_set(place: usize) -> u8 {
    1 + (place % usize::from(ALL_CLASSES)) as u8
}

fn one_agent() -> Table {
    let row = |i: usize| match i % 2 {
        0 => Row::barrier(0, order::BOTH, class_set(i / 2)),
        _ => Row::write(0),
    };
    Table::of_one_workgroup(1, &(0..MAX_ROWS).map(row).collect::<Vec<Row>>())
}

/// Each agent has a read-modify-write between two barriers, then a plain write.
fn class_sets() -> Table {
    let row = |i: usize| {
        let (group, agent) = (i / EACH, (i / EACH) as u8);
        match i % EACH {
            0 | 2 => Row::barrier(agent, order::BOTH, class_set(group)),
            1 => Row::rmw(agent, earlier(i, EACH), group as u16 + 1),
            _ => Row::write(agent).at(64, 4).reference(2),
        }
    };
    shared((0..MAX_ROWS).map(row).collect())
}

/// The row so many places before, or the initial value.
fn earlier(row: usize, places: usize) -> u16 {
    row.checked_sub(places).map_or(INITIAL, |row| row as u16)
}

/// Row i's place in a sequence. Up the page the last agent's rows come first;
/// each agent's own stay in order.
fn turn(row: usize, is_up: bool) -> usize {
    match is_up {
        true => (MAX_AGENTS - 1 - row / EACH) * EACH + row % EACH,
        false => row,
    }
}

/// A read-modify-write of the sequence: `turn` is its own inverse.
fn member(row: usize, is_up: bool) -> Row {
    let turn_of = turn(row, is_up);
    let source = turn_of
        .checked_sub(1)
        .map_or(INITIAL, |before| turn(before, is_up) as u16);
    Row::rmw((row / EACH) as u8, source, turn_of as u16 + 1)
}

fn rmws(is_up: bool) -> Vec<Row> {
    let row = |i| member(i, is_up).order(order::BOTH, ALL_CLASSES);
    (0..MAX_ROWS).map(row).collect()
}

/// Barriers in even rows, members of a sequence in odd ones.
fn between_barriers(is_up: bool) -> Vec<Row> {
    let row = |i: usize| {
        let turn_of = turn(i, is_up);
        let source = turn_of
            .checked_sub(2)
            .map_or(INITIAL, |before| turn(before, is_up) as u16);
        match i % 2 {
            0 => Row::barrier((i / EACH) as u8, order::BOTH, ALL_CLASSES),
            _ => Row::rmw((i / EACH) as u8, source, turn_of as u16 + 1),
        }
    };
    (0..MAX_ROWS).map(row).collect()
}

/// Write, read-modify-write and read in turn, each three times, a place each.
fn three_places() -> Vec<Row> {
    let row = |i: usize| {
        let (agent, rank) = (agent_of(i), i as u16 + 1);
        let row = match i / 3 % 3 {
            0 => Row::atomic_write(agent, rank).release(ALL_CLASSES),
            1 => Row::rmw(agent, earlier(i, 3), rank).order(order::BOTH, ALL_CLASSES),
            _ => Row::atomic_read(agent, earlier(i, 3)).acquire(ALL_CLASSES),
        };
        row.at((i % 3 * 4) as u16, 4)
    };
    (0..MAX_ROWS).map(row).collect()
}

fn barriers() -> Vec<Row> {
    let row = |i| Row::barrier(agent_of(i), order::BOTH, ALL_CLASSES);
    (0..MAX_ROWS).map(row).collect()
}

/// Writes that make themselves available, and reads that make them visible.
fn own_moments() -> Vec<Row> {
    let row = |i: usize| {
        let row = match i % 2 {
            0 => Row::write(agent_of(i)).make_available(),
            _ => Row::read(agent_of(i), earlier(i, 1)).make_visible(),
        };
        row.scope(scope::DEVICE).at(1, 15)
    };
    (0..MAX_ROWS).map(row).collect()
}

/// Two agents that each read what the other writes afterwards.
fn circles() -> Vec<Row> {
    let row = |i: usize| {
        let (first, agent) = (i / 4 * 4, (i / 2 % MAX_AGENTS) as u8);
        let (read, written) = ((first * 2) as u16, (first * 2 + 4) as u16);
        match i % 4 {
            0 => Row::atomic_read(agent, first as u16 + 3).at(read, 4),
            1 => Row::atomic_write(agent, 1).at(written, 4),
            2 => Row::atomic_read(agent, first as u16 + 1).at(written, 4),
            _ => Row::atomic_write(agent, 1).at(read, 4),
        }
    };
    let ordered = |row: Row| match row.kind {
        kind::ATOMIC_READ => row.acquire(ALL_CLASSES),
        _ => row.release(ALL_CLASSES),
    };
    (0..MAX_ROWS).map(row).map(ordered).collect()
}

fn control_barriers() -> Vec<Row> {
    let row = |i: usize| {
        let instance = (i / MAX_AGENTS) as u16;
        Row::control_barrier(agent_of(i), scope::WORKGROUP, instance)
            .order(order::BOTH, ALL_CLASSES)
    };
    (0..MAX_ROWS).map(row).collect()
}

/// The host writes, a queue carries it over, a shader reads.
fn uploads() -> Table {
    let row = |i: usize| {
        let bytes = (i / EACH * 4) as u16;
        match i % EACH {
            0 => Row::write(0).at(bytes, 4),
            1 => Row::queue(1, kind::HOST_TO_DEVICE),
            2 => Row::queue(1, kind::VISIBLE_FROM_DEVICE),
            _ => Row::read(2, earlier(i, 3)).at(bytes, 4),
        }
    };
    let rows: Vec<Row> = (0..MAX_ROWS).map(row).collect();
    let dependencies: Vec<[u16; 2]> = (0..MAX_ROWS as u16)
        .step_by(2)
        .map(|row| [row, row + 1])
        .collect();
    Table::with_sorts(
        &[sort::HOST, sort::QUEUE, sort::SHADER],
        &rows,
        &dependencies,
    )
}
