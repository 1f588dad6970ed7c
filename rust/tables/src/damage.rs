//! Damage to good tables, so that every refusal is reached at various rows.

use crate::builder::{flags, kind, order, Build, Row, Table, BLANK, INITIAL, MAX_AGENTS, MAX_ROWS};
use crate::generator::{checkable, Size};
use crate::mutation::{in_one_order, rows_that};
use crate::random::Random;

/// The refusals that a table's bytes can meet.
const NUMBERS: [usize; 12] = [1, 2, 3, 4, 5, 6, 7, 8, 9, 10, 14, 15];

/// Bytes of a good table with one damage, or with two now and then.
pub fn damaged(random: &mut Random, size: Size) -> Vec<u8> {
    let mut table = checkable(random, size);
    let number = random.pick(&NUMBERS);
    let second = random.pick(&NUMBERS[4..]);
    // The higher number first: its damage needs rows that are good so far.
    if random.percent(25) {
        damage_table(random, &mut table, number.max(second));
        damage_table(random, &mut table, number.min(second));
    } else {
        damage_table(random, &mut table, number);
    }
    let mut bytes = table.bytes();
    damage_bytes(random, &mut bytes, number);
    bytes
}

/// Damage for refusals 1 to 4, and any byte now and then.
pub(crate) fn damage_bytes(random: &mut Random, bytes: &mut Vec<u8>, number: usize) {
    match number {
        1 => bytes.truncate(random.below(8)),
        2 if random.percent(50) => bytes[4] = random.pick(&[0, 4, 5, 255]),
        2 => bytes[7] = random.pick(&[1, 128, 255]),
        3 if random.percent(50) => bytes[5] = random.between(MAX_AGENTS + 1, 255) as u8,
        3 => bytes[6] = random.between(MAX_ROWS + 1, 255) as u8,
        4 => damage_length(random, bytes),
        _ if random.percent(10) => {
            let place = random.below(bytes.len());
            bytes[place] ^= 1 << random.below(8);
        }
        _ => (),
    }
}

fn damage_length(random: &mut Random, bytes: &mut Vec<u8>) {
    match random.below(5) {
        0 => bytes[random.below(4)] ^= 1 << random.below(8),
        1 => bytes.push(0),
        2 => bytes.truncate((bytes.len() - 1).max(8)),
        3 => bytes.truncate(random.between(8, bytes.len())),
        _ => bytes[6] = random.below(MAX_ROWS + 1) as u8,
    }
}

/// Damage for refusals 5 and on; a table with no row to damage stays good.
pub(crate) fn damage_table(random: &mut Random, table: &mut Table, number: usize) {
    match number {
        5 => damage_row(random, table, |_| true, damage_code),
        6 => damage_row(random, table, |_| true, damage_kind_fit),
        7 => damage_row(random, table, Row::is_access, damage_bytes_of_row),
        8 => damage_class(random, table),
        9 => damage_source(random, table),
        10 => damage_rank(random, table),
        14 => damage_instance(random, table),
        15 => damage_run(random, table),
        _ => (),
    }
}

pub(crate) fn damage_row(
    random: &mut Random,
    table: &mut Table,
    test: impl Fn(Row) -> bool,
    damage: impl Fn(&mut Random, &mut Row),
) {
    let rows = rows_that(table, test);
    if !rows.is_empty() {
        let row = random.pick(&rows);
        damage(random, &mut table.rows[row]);
    }
}

fn damage_code(random: &mut Random, row: &mut Row) {
    match random.below(7) {
        0 => row.kind = random.pick(&[7, 8, 255]),
        1 => row.agent = random.pick(&[32, 33, 255]),
        2 => row.order = random.pick(&[4, 5, 255]),
        3 => row.scope = random.pick(&[5, 6, 255]),
        4 => row.classes = random.pick(&[16, 17, 255]),
        5 => row.flags = random.pick(&[8, 9, 255]),
        _ if row.is_control_barrier() => row.class = random.pick(&[5, 6, 255]),
        _ => row.class = random.pick(&[4, 5, 255]),
    }
}

fn damage_kind_fit(random: &mut Random, row: &mut Row) {
    match row.kind {
        kind::PLAIN_READ | kind::PLAIN_WRITE => damage_plain(random, row),
        kind::BARRIER => damage_barrier(random, row),
        kind::CONTROL_BARRIER => damage_control_barrier(random, row),
        _ => damage_atomic(random, row),
    }
}

fn damage_plain(random: &mut Random, row: &mut Row) {
    match random.below(7) {
        0 => row.order = random.between(1, 3) as u8,
        1 => row.classes = random.between(1, 15) as u8,
        2 => row.flags |= flags::MAKE_AVAILABLE | flags::MAKE_VISIBLE,
        3 => row.flags = random.pick(&[flags::MAKE_AVAILABLE, flags::MAKE_VISIBLE]),
        4 => {
            row.flags &= flags::NON_PRIVATE;
            row.scope = random.between(1, 4) as u8;
        }
        5 => row.rank = 1,
        _ if row.kind == kind::PLAIN_WRITE => row.source = random.pick(&[0, BLANK]),
        _ => row.rank = 65535,
    }
}

fn damage_atomic(random: &mut Random, row: &mut Row) {
    match random.below(6) {
        0 => row.flags &= !flags::NON_PRIVATE,
        1 => (row.order, row.classes) = (order::RELAXED, 1),
        2 => (row.order, row.classes) = (row.order.max(1), 0),
        3 if row.kind != kind::RMW => row.order = order::BOTH,
        4 if row.kind == kind::ATOMIC_READ => row.rank = 1,
        4 if row.kind == kind::ATOMIC_WRITE => row.source = random.pick(&[0, BLANK]),
        _ => {
            (row.order, row.classes) = (order::RELAXED, 0);
            row.flags |= random.pick(&[flags::MAKE_AVAILABLE, flags::MAKE_VISIBLE]);
        }
    }
}

fn damage_barrier(random: &mut Random, row: &mut Row) {
    match random.below(9) {
        0 => row.order = order::RELAXED,
        1 => row.flags |= flags::NON_PRIVATE,
        2 => row.class = 1,
        3 => row.length = 4,
        4 => row.start = random.pick(&[1, 256]),
        5 => row.reference = random.pick(&[1, 256]),
        6 => row.source = random.pick(&[0, BLANK]),
        7 => row.rank = 1,
        _ => row.classes = 0,
    }
}

fn damage_control_barrier(random: &mut Random, row: &mut Row) {
    match random.below(8) {
        0 => (row.order, row.classes) = (order::RELAXED, 1),
        1 => (row.order, row.classes) = (row.order.max(1), 0),
        2 => row.flags |= flags::NON_PRIVATE,
        3 => row.length = random.pick(&[1, 4]),
        4 => row.reference = random.pick(&[1, 256]),
        5 => row.source = random.pick(&[0, BLANK]),
        6 => row.rank = random.pick(&[1, 256]),
        _ => {
            (row.order, row.classes) = (order::RELAXED, 0);
            row.flags |= random.pick(&[flags::MAKE_AVAILABLE, flags::MAKE_VISIBLE]);
        }
    }
}

fn damage_bytes_of_row(random: &mut Random, row: &mut Row) {
    if row.is_atomic() && random.percent(60) {
        return damage_atomic_bytes(random, row);
    }
    match random.below(3) {
        0 => row.length = 0,
        1 => row.length = random.pick(&[17, 18, 255]),
        _ => {
            row.length = row.length.max(2);
            row.start = u16::MAX - random.below(usize::from(row.length) - 1) as u16;
        }
    }
}

/// Gives an atomic a length or a start that only a plain row may have.
fn damage_atomic_bytes(random: &mut Random, row: &mut Row) {
    match random.below(3) {
        0 => row.length = random.pick(&[1, 2, 3, 5, 6, 7, 12, 16]),
        1 => row.start = row.start - row.start % 4 + random.pick(&[1, 2, 3]),
        _ => {
            row.length = 8;
            row.start = row.start - row.start % 8 + 4;
        }
    }
}

/// Gives an access another class than its reference had before, if it can.
fn damage_class(random: &mut Random, table: &mut Table) {
    let again = rows_with_an_earlier(table, |earlier, row| {
        earlier.is_access() && row.is_access() && earlier.reference == row.reference
    });
    if !again.is_empty() {
        let (_, row) = random.pick(&again);
        table.rows[row].class = (table.rows[row].class + random.between(1, 3) as u8) % 4;
    }
}

/// Pairs of an earlier and a later row.
fn rows_with_an_earlier(table: &Table, test: impl Fn(Row, Row) -> bool) -> Vec<(usize, usize)> {
    let mut pairs = Vec::new();
    for row in 0..table.rows.len() {
        for earlier in 0..row {
            if test(table.rows[earlier], table.rows[row]) {
                pairs.push((earlier, row));
            }
        }
    }
    pairs
}

fn damage_source(random: &mut Random, table: &mut Table) {
    let readers = rows_that(table, Row::reads);
    if readers.is_empty() {
        return;
    }
    let reader = random.pick(&readers);
    let row_count = table.rows.len() as u16;
    table.rows[reader].source = match random.below(5) {
        0 => reader as u16,
        1 => row_count,
        2 => BLANK,
        3 => random.pick(&[256, 512, 65533]),
        _ => random.below(table.rows.len()) as u16,
    };
}

/// Gives a writer the rank of an earlier one of its scoped order, if it can;
/// equal ranks out of scope are good.
fn damage_rank(random: &mut Random, table: &mut Table) {
    let mut pairs =
        rows_with_an_earlier(table, |x, y| x.is_atomic_writer() && y.is_atomic_writer());
    pairs.retain(|(earlier, row)| in_one_order(table, *earlier, *row));
    if pairs.is_empty() {
        add_equal_rank(random, table);
    } else {
        let (earlier, row) = random.pick(&pairs);
        table.rows[row].rank = table.rows[earlier].rank;
    }
}

/// Makes a second writer out of the row after one, rank and place alike.
fn add_equal_rank(random: &mut Random, table: &mut Table) {
    add_writer(random, table, 0);
}

/// Makes a second writer of one place out of the row after one, its rank so
/// many counts further on.
fn add_writer(random: &mut Random, table: &mut Table, further: u16) {
    let writers = rows_that(table, Row::is_atomic_writer);
    if writers.is_empty() {
        return;
    }
    let place = random.pick(&writers);
    if place + 1 < table.rows.len() {
        let copy = table.rows[place];
        table.rows[place + 1] = Row {
            kind: kind::ATOMIC_WRITE,
            order: order::RELAXED,
            classes: 0,
            flags: flags::NON_PRIVATE,
            source: INITIAL,
            rank: copy.rank.wrapping_add(further),
            ..copy
        };
    }
}

/// Gives a writer of counted rank one that with an earlier writer of its place
/// makes a run of 32,769 counts or more; now and then of just 32,768, which
/// fits.
fn damage_run(random: &mut Random, table: &mut Table) {
    table.version = table.version.max(2);
    let further = random.pick(&[32767, 32768, 32768, 32768, 32769, 40000]);
    let pairs = rows_with_an_earlier(table, Row::ranks_with);
    if pairs.is_empty() {
        add_first_writer(random, table);
        return add_writer(random, table, further);
    }
    let (earlier, row) = random.pick(&pairs);
    table.rows[row].rank = table.rows[earlier].rank.wrapping_add(further);
}

/// Makes a row an atomic write where there is no atomic writer.
fn add_first_writer(random: &mut Random, table: &mut Table) {
    if !table.rows.iter().any(|row| row.is_atomic_writer()) && !table.rows.is_empty() {
        let place = random.below(table.rows.len().max(2) - 1);
        let rank = random.word() as u16;
        table.rows[place] = Row::atomic_write(table.rows[place].agent, rank).reference(999);
    }
}

/// Gives a control barrier of an instance that it doesn't fit in to a table:
/// another execution scope, the agent of another row, or an agent afar.
fn damage_instance(random: &mut Random, table: &mut Table) {
    let pairs = rows_with_an_earlier(table, Row::meets);
    if pairs.is_empty() {
        return add_misfit(random, table);
    }
    let (earlier, row) = random.pick(&pairs);
    let other = table.rows[earlier];
    match random.below(3) {
        0 => table.rows[row].class = (other.class + random.between(1, 4) as u8) % 5,
        1 => table.rows[row].agent = other.agent,
        _ => {
            let agent = usize::from(table.rows[row].agent);
            table.agents[agent] = [77, 77, 77];
        }
    }
}

/// Makes two rows control barriers of one instance that one agent meets
/// itself in, or two in scopes of their own.
fn add_misfit(random: &mut Random, table: &mut Table) {
    if table.rows.len() < 2 {
        return;
    }
    let place = random.below(table.rows.len() - 1);
    let agent = table.rows[place].agent;
    let scope = random.below(5) as u8;
    let other = if random.percent(50) {
        scope
    } else {
        (scope + 1) % 5
    };
    table.rows[place] = Row::control_barrier(agent, scope, 9);
    table.rows[place + 1] = Row::control_barrier(agent, other, 9);
}
