//! Tables of version 3: runs of shaders with hosts and queues beside them.

use crate::builder::{sort, Build, Row, Table, INITIAL, MAX_DEPENDENCIES};
use crate::episode::{episode, hosted_episode, Cast, Ground};
use crate::generator::{agents, append, shuffle_agents, with_blanks, Size};
use crate::mutation::{make_cyclic, make_stale, mutate, repair, rows_that};
use crate::random::Random;

/// A table for a check: race-free, racing or inconsistent, nearly always
/// admissible.
pub fn hosted(random: &mut Random, size: Size) -> Table {
    let mut table = run(random, size);
    match random.below(100) {
        0..=19 => (),
        20..=57 => weaken_some(random, &mut table),
        58..=69 => {
            make_cyclic(random, &mut table);
        }
        70..=81 => {
            make_stale(random, &mut table, size.most);
        }
        _ => {
            for _ in 0..random.pick(&[1, 1, 2, 5]) {
                mutate_hosted(random, &mut table);
            }
        }
    }
    shuffle_agents(random, &mut table);
    table
}

/// A table for a fill: like one for a check, with blanks in most of them.
pub fn hosted_fillable(random: &mut Random, size: Size) -> Table {
    let table = hosted(random, size);
    with_blanks(random, table)
}

/// A race-free and consistent run of the wanted size, with few exceptions.
fn run(random: &mut Random, size: Size) -> Table {
    let mut table = Table::new(&agents(random), &[]);
    let shaders = table.agents.len().min(8);
    table.agents.truncate(shaders);
    table.version = 3;
    table.sorts = vec![sort::SHADER; shaders];
    for sort in [sort::HOST, sort::QUEUE] {
        for _ in 0..random.pick(&[1, 1, 2, 3]) {
            table.agents.push([0, 0, random.below(2) as u16]);
            table.sorts.push(sort);
        }
    }
    let cast = Cast::new(&table.sorts);
    let mut ground = Ground::new(random);
    let row_count = random.between(size.least, size.most);
    let share = random.pick(&[30, 60, 100]);
    for _ in 0..10 * row_count {
        let mut rest = ground;
        let (rows, dependencies) = if random.percent(share) {
            hosted_episode(random, &mut rest, &cast)
        } else {
            let places = &table.agents[..shaders];
            (episode(random, &mut rest, places, true), Vec::new())
        };
        let has_room = table.rows.len() + rows.len() <= row_count
            && table.dependencies.len() + dependencies.len() <= MAX_DEPENDENCIES;
        if has_room {
            add(random, &mut table, rows, dependencies);
            ground = rest;
        }
    }
    while table.rows.len() < size.least {
        let host = random.pick(&cast.hosts);
        let bytes = table.rows.len() as u16 * 16;
        table.rows.push(Row::read(host, INITIAL).at(bytes, 1));
    }
    repair(random, &mut table);
    number_agents_anew(random, &mut table);
    table
}

fn add(random: &mut Random, table: &mut Table, rows: Vec<Row>, dependencies: Vec<[u16; 2]>) {
    let first = table.rows.len() as u16;
    let moved = dependencies
        .into_iter()
        .map(|rows| rows.map(|row| row + first));
    table.dependencies.extend(moved);
    append(random, table, rows);
}

/// Agents of each sort get any numbers.
fn number_agents_anew(random: &mut Random, table: &mut Table) {
    let count = table.agents.len();
    let mut order: Vec<usize> = (0..count).collect();
    for place in 0..count {
        order.swap(place, random.between(place, count - 1));
    }
    let (agents, sorts) = (table.agents.clone(), table.sorts.clone());
    for (old, new) in order.iter().enumerate() {
        table.agents[*new] = agents[old];
        table.sorts[*new] = sorts[old];
    }
    for row in &mut table.rows {
        row.agent = order[usize::from(row.agent)] as u8;
    }
}

fn weaken_some(random: &mut Random, table: &mut Table) {
    for _ in 0..random.pick(&[1, 1, 2]) {
        weaken(random, table);
    }
}

/// Takes away one step of a way, or turns it round.
fn weaken(random: &mut Random, table: &mut Table) {
    let operations = rows_that(table, Row::is_queue_operation);
    if random.percent(45) && !operations.is_empty() {
        let row = random.pick(&operations);
        table.rows[row].kind = random.between(7, 12) as u8;
    } else if !table.dependencies.is_empty() {
        let place = random.below(table.dependencies.len());
        if random.percent(70) {
            table.dependencies.remove(place);
        } else {
            table.dependencies[place].reverse();
        }
    }
}

/// Changes one thing at random: of the rows, or of what only this version has.
fn mutate_hosted(random: &mut Random, table: &mut Table) {
    match random.below(10) {
        0..=2 => weaken(random, table),
        3..=4 => add_dependency(random, table),
        5 => change_sort(random, table),
        6 => add_operation(random, table),
        _ => mutate(random, table),
    }
    repair(random, table);
}

/// Any dependency, now and then of a row on itself.
fn add_dependency(random: &mut Random, table: &mut Table) {
    if table.rows.is_empty() || table.dependencies.len() >= MAX_DEPENDENCIES {
        return;
    }
    let mut row = || random.below(table.rows.len()) as u16;
    let dependency = [row(), row()];
    table.dependencies.push(dependency);
}

/// Gives an agent another sort; its rows go to others.
fn change_sort(random: &mut Random, table: &mut Table) {
    let agent = random.below(table.sorts.len());
    table.sorts[agent] = random.below(3) as u16;
}

/// Makes a row a queue operation in its agent's place.
fn add_operation(random: &mut Random, table: &mut Table) {
    if !table.rows.is_empty() {
        let row = random.below(table.rows.len());
        let kind = random.between(7, 12) as u8;
        table.rows[row] = Row::queue(table.rows[row].agent, kind);
    }
}
