//! Small tables about one datum and one flag: two agents, or three, with or
//! without barriers, in any order of their own rows, with any scopes, classes
//! and flags that a row may have. Of two such tables that differ in one place,
//! often one races.

use tables::{Build, Random, Row, Table, BLANK, INITIAL};

/// The rows that write and read the flag are numbered once all are in place.
const STORE: u16 = 60000;
const UPDATE: u16 = 60001;
const DATUM: u16 = 60002;

pub fn handshake(random: &mut Random) -> Table {
    let mut groups = vec![sender(random)];
    if random.percent(35) {
        groups.push(vec![update(random)]);
    }
    groups.push(receiver(random));
    let mut rows = Vec::new();
    for group in &mut groups {
        if random.percent(30) {
            shuffle(random, group);
        }
        rows.append(group);
    }
    if random.percent(15) {
        rows.reverse();
    }
    number(&mut rows);
    // Numbers that differ in their first byte, or in their second.
    let one = random.pick(&[1, 1, 256]);
    let places = [[0, 0, 0], [0, 0, one], [0, one, 0], [one, 0, 0]];
    let mut agents = vec![[0, 0, 0]];
    agents.extend((0..2).map(|_| random.pick(&places)));
    let table = Table::new(&agents, &rows);
    match random.percent(30) {
        true => table.counted(),
        false => table,
    }
}

/// A datum written, a flag stored, perhaps a barrier between them.
fn sender(random: &mut Random) -> Vec<Row> {
    let first = random.pick(&[Row::write(0), Row::write(0), Row::read(0, INITIAL)]);
    let mut datum = plain(random, first);
    if datum.writes() && random.percent(30) {
        let scope = random.pick(&[0, 1, 1, 2, 4]);
        datum = datum.make_available().scope(scope);
    }
    let store = atomic(random, Row::atomic_write(0, 1), &[0, 2, 2]);
    let mut rows = vec![datum, store];
    if random.percent(45) {
        rows.insert(1, barrier(random, 0, 2));
    }
    if random.percent(20) {
        let rank = random.pick(&[2, 5]);
        rows.push(atomic(random, Row::atomic_write(0, rank), &[0, 2]));
    }
    // Another reference, or other bytes, made available in its place.
    if random.percent(15) {
        let other = random.pick(&[(0, 3), (0, 1), (2, 1)]);
        let write = Row::write(0)
            .at(other.0, 4)
            .reference(other.1)
            .class(u8::from(other.1 == 3));
        rows.insert(1, write.make_available().scope(random.pick(&[1, 2, 4])));
    }
    rows
}

fn update(random: &mut Random) -> Row {
    atomic(random, Row::rmw(2, STORE, 3), &[0, 1, 2, 3])
}

/// The flag loaded, perhaps a barrier, the datum read or written.
fn receiver(random: &mut Random) -> Vec<Row> {
    let from = random.pick(&[STORE, STORE, UPDATE, INITIAL]);
    let load = match random.percent(80) {
        true => atomic(random, Row::atomic_read(1, from), &[0, 1, 1]),
        false => atomic(random, Row::rmw(1, from, 7), &[0, 1, 3]),
    };
    let source = random.pick(&[DATUM, DATUM, DATUM, BLANK, INITIAL]);
    let row = random.pick(&[Row::read(1, source), Row::read(1, source), Row::write(1)]);
    let mut datum = plain(random, row);
    if datum.reads() && random.percent(30) {
        let scope = random.pick(&[0, 1, 1, 2, 4]);
        datum = datum.make_visible().scope(scope);
    }
    let mut rows = vec![load, datum];
    if random.percent(45) {
        rows.insert(1, barrier(random, 1, 1));
    }
    if random.percent(15) {
        rows.push(plain(random, Row::read(1, BLANK)));
    }
    if random.percent(15) {
        let start = random.pick(&[0, 2, 8]);
        let other = Row::read(1, INITIAL)
            .at(start, 2)
            .reference(random.pick(&[1, 1, 9]));
        let place = 1 + random.below(rows.len());
        rows.insert(place, other.make_visible().scope(random.pick(&[1, 2, 4])));
    }
    if random.percent(15) {
        rows.insert(1, atomic(random, Row::atomic_read(1, STORE), &[0, 1]));
    }
    rows
}

fn plain(random: &mut Random, row: Row) -> Row {
    let length = random.pick(&[4, 4, 4, 2, 8]);
    let (reference, class) = random.pick(&[(1, 0), (1, 0), (1, 0), (3, 1)]);
    let row = row.at(0, length).reference(reference).class(class);
    match random.percent(12) {
        true => row.private(),
        false => row,
    }
}

/// Mostly of the flag's class, in a scope that holds both agents or not.
fn atomic(random: &mut Random, row: Row, orders: &[u8]) -> Row {
    let scope = random.pick(&[0, 1, 2, 2, 2, 2, 2, 2, 3, 4]);
    let class = if random.percent(85) { 0 } else { 1 };
    let reference = if class == 0 { 2 } else { 4 };
    let row = row.at(16, 4).scope(scope).class(class).reference(reference);
    ordered(random, row, orders)
}

fn barrier(random: &mut Random, agent: u8, order: u8) -> Row {
    let scope = random.pick(&[0, 1, 2, 2, 2, 2, 4]);
    let row = match random.percent(65) {
        true => Row::barrier(agent, order, 1),
        false => Row::control_barrier(agent, random.pick(&[2, 2, 4]), 7),
    };
    ordered(random, row.scope(scope), &[order, order, 3])
}

/// With an order, class sets, and what a row of that order may make available
/// or visible.
fn ordered(random: &mut Random, row: Row, orders: &[u8]) -> Row {
    let order = random.pick(orders);
    if order == 0 {
        return row.order(0, 0);
    }
    let mut row = row.order(order, random.pick(&[1, 1, 1, 2, 3, 7, 15]));
    if order >= 2 && random.percent(80) {
        row = row.make_available();
    }
    if order != 2 && random.percent(80) {
        row = row.make_visible();
    }
    row
}

fn shuffle(random: &mut Random, rows: &mut [Row]) {
    for place in 1..rows.len() {
        rows.swap(place, random.below(place + 1));
    }
}

/// Sources by row; what isn't there is the initial value.
fn number(rows: &mut [Row]) {
    let find = |wanted: &dyn Fn(&Row) -> bool| rows.iter().position(wanted);
    let places = [
        (STORE, find(&|row| row.agent == 0 && row.is_atomic_writer())),
        (UPDATE, find(&|row| row.agent == 2)),
        (DATUM, find(&|row| row.agent == 0 && row.is_plain())),
    ];
    for row in rows {
        let known = places.iter().find(|(name, _)| *name == row.source);
        if let Some((_, place)) = known {
            row.source = place.map_or(INITIAL, |place| place as u16);
        }
    }
}
