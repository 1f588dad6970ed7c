//! Damage to good tables of version 3: every refusal that it has of its own,
//! and those that it shares.

use crate::builder::{kind, sort, Row, Table, BLANK, MAX_DEPENDENCIES};
use crate::damage::{damage_bytes, damage_row, damage_table};
use crate::generator::Size;
use crate::hosted::hosted;
use crate::random::Random;

/// The refusals that such a table's bytes can meet; 4 and those from 16 on
/// are its own.
const NUMBERS: [usize; 24] = [
    1, 2, 3, 4, 4, 4, 5, 6, 7, 8, 9, 10, 14, 15, 16, 16, 17, 17, 18, 18, 19, 19, 20, 20,
];

/// Bytes of a good table with one damage, or with two now and then.
pub fn damaged_hosted(random: &mut Random, size: Size) -> Vec<u8> {
    let mut table = hosted(random, size);
    let number = random.pick(&NUMBERS);
    damage(random, &mut table, number);
    if random.percent(20) {
        let second = random.pick(&NUMBERS[3..]);
        damage(random, &mut table, second);
    }
    let mut bytes = table.bytes();
    match number {
        4 if random.percent(60) => damage_count(random, &mut bytes, &table),
        _ => damage_bytes(random, &mut bytes, number),
    }
    bytes
}

fn damage(random: &mut Random, table: &mut Table, number: usize) {
    let is_queue = Row::is_queue_operation;
    match number {
        5 if random.percent(30) => damage_row(random, table, |_| true, damage_kind),
        16 => {
            let agent = random.below(table.sorts.len());
            table.sorts[agent] = random.pick(&[3, 4, 256, 65535]);
        }
        17 => add_dependencies(random, table),
        18 => damage_dependency(random, table),
        19 => damage_sort(random, table),
        20 => damage_row(random, table, is_queue, damage_operation),
        _ => damage_table(random, table, number),
    }
}

/// Gives the dependencies another count than there are, or cuts it off.
fn damage_count(random: &mut Random, bytes: &mut Vec<u8>, table: &Table) {
    let at = 8 + 8 * table.agents.len() + 16 * table.rows.len();
    match random.below(4) {
        0 => bytes.truncate(at + random.below(2)),
        1 => bytes[at + 1] = bytes[at + 1].wrapping_add(random.pick(&[1, 2, 255])),
        2 => bytes[at] = random.pick(&[1, 255]),
        _ => bytes.truncate(bytes.len() - random.between(1, 3).min(bytes.len() - at)),
    }
    // Often the count of bytes fits all the same.
    if random.percent(70) {
        let following = (bytes.len() as u32 - 4).to_be_bytes();
        bytes[..4].copy_from_slice(&following);
    }
}

fn damage_kind(random: &mut Random, row: &mut Row) {
    row.kind = random.pick(&[13, 14, 255]);
}

/// More dependencies than there may be, or just as many as that.
fn add_dependencies(random: &mut Random, table: &mut Table) {
    let count = MAX_DEPENDENCIES + random.pick(&[0, 1, 1, 1, 2, 200]);
    let rows = table.rows.len().max(1);
    while table.dependencies.len() < count {
        let mut row = || random.below(rows) as u16;
        let dependency = [row(), row()];
        table.dependencies.push(dependency);
    }
}

/// A dependency that names no row, on one side or the other.
fn damage_dependency(random: &mut Random, table: &mut Table) {
    let rows = table.rows.len() as u16;
    let none = random.pick(&[rows, rows, rows + 1, 128, 256, BLANK, 65535]);
    if table.dependencies.is_empty() {
        table.dependencies.push([0, 0]);
    }
    let place = random.below(table.dependencies.len());
    table.dependencies[place][random.below(2)] = none.max(rows);
}

/// A kind that its agent may not have: the agent's sort changes, or the kind.
fn damage_sort(random: &mut Random, table: &mut Table) {
    if table.rows.is_empty() {
        return;
    }
    let place = random.below(table.rows.len());
    let agent = table.rows[place].agent;
    if random.percent(50) {
        let others = [1, 2].map(|more| (table.sort(agent) + more) % 3);
        let other = random.pick(&others);
        // A damage before this one may have named an agent that there is not.
        if let Some(sort) = table.sorts.get_mut(usize::from(agent)) {
            *sort = other;
        }
        return;
    }
    table.rows[place].kind = match table.sort(agent) {
        sort::HOST => random.between(2, 12) as u8,
        sort::QUEUE => random.below(7) as u8,
        _ => random.between(7, 12) as u8,
    };
}

fn damage_operation(random: &mut Random, row: &mut Row) {
    match random.below(10) {
        0 => row.order = random.between(1, 3) as u8,
        1 => row.scope = random.between(1, 4) as u8,
        2 => row.classes = random.between(1, 15) as u8,
        3 => row.flags = random.between(1, 7) as u8,
        4 => row.class = random.between(1, 3) as u8,
        5 => row.length = random.pick(&[1, 4, 255]),
        6 => row.start = random.pick(&[1, 256]),
        7 => row.reference = random.pick(&[1, 256]),
        8 => row.source = random.pick(&[0, BLANK]),
        _ => row.rank = random.pick(&[1, 256]),
    }
    // Now and then it is its kind that goes out of range.
    if random.percent(3) {
        row.kind = kind::DEVICE_TO_HOST + 1;
    }
}
