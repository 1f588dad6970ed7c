//! Tables whose data goes by availability and visibility chains.

use crate::builder::{flags, scope, Table};
use crate::episode::{chain_episode, episode};
use crate::generator::{count_some, mutate_some, run_of, shuffle_agents, with_blanks, Size};
use crate::mutation::{make_cyclic, make_stale, repair, rows_that};
use crate::random::Random;

/// A table for a check: with chains on race-free, racing or inconsistent; with
/// chains off racing most often.
pub fn chained(random: &mut Random, size: Size) -> Table {
    let mut table = run(random, size);
    match random.below(100) {
        0..=29 => (),
        30..=54 => break_one(random, &mut table),
        55..=66 => {
            make_cyclic(random, &mut table);
        }
        67..=79 => {
            make_stale(random, &mut table, size.most);
        }
        _ => mutate_some(random, &mut table),
    }
    count_some(random, &mut table);
    shuffle_agents(random, &mut table);
    table
}

/// A table for a fill: like one for a check, with blanks in most of them.
pub fn chained_fillable(random: &mut Random, size: Size) -> Table {
    let table = chained(random, size);
    with_blanks(random, table)
}

fn run(random: &mut Random, size: Size) -> Table {
    let agents = agents(random);
    let share = random.pick(&[40, 80, 100]);
    run_of(random, size, agents, |random, ground, places| {
        if random.percent(share) {
            chain_episode(random, ground, places)
        } else {
            episode(random, ground, places, true)
        }
    })
}

/// Agents in several instances of each scope, so that a chain has somewhere to
/// go.
fn agents(random: &mut Random) -> Vec<[u16; 3]> {
    let count = random.pick(&[3, 4, 6, 8, 12]);
    let ranges = random.pick(&[[1, 2, 2], [2, 2, 2], [1, 3, 1], [2, 1, 2], [2, 3, 3]]);
    (0..count)
        .map(|_| ranges.map(|range| random.below(range) as u16))
        .collect()
}

/// Breaks a chain at one element: its scope, its flag, or the instance that
/// its agent is in.
fn break_one(random: &mut Random, table: &mut Table) {
    let elements = rows_that(table, |row| row.flags & !flags::NON_PRIVATE != 0);
    if elements.is_empty() {
        return;
    }
    let row = random.pick(&elements);
    match random.below(4) {
        0 => table.rows[row].flags &= flags::NON_PRIVATE,
        1 | 2 => table.rows[row].scope = any_scope(random),
        _ => {
            let agent = usize::from(table.rows[row].agent);
            table.agents[agent][random.below(3)] = random.below(3) as u16;
        }
    }
    repair(random, table);
}

fn any_scope(random: &mut Random) -> u8 {
    random.between(scope::SUBGROUP.into(), scope::DEVICE.into()) as u8
}
