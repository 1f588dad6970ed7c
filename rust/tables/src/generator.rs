//! Whole tables: episodes put together, reordered and mutated.

use crate::builder::{kind, Row, Table, BLANK, INITIAL, MAX_AGENTS, MAX_ROWS};
use crate::counted::count_ranks;
use crate::episode::{episode, Ground};
use crate::mutation::{make_cyclic, make_stale, mutate, reorder, repair, rows_that, weaken};
use crate::random::Random;

/// Least and most rows of a table.
#[derive(Clone, Copy)]
pub struct Size {
    pub least: usize,
    pub most: usize,
}

impl Size {
    /// Sizes that tests share.
    pub const SMALL: Size = Size::of(2, 11);
    pub const MIDDLE: Size = Size::of(12, 24);
    pub const LARGEST: Size = Size::of(MAX_ROWS, MAX_ROWS);

    /// From so many rows to so many.
    pub const fn of(least: usize, most: usize) -> Size {
        Size { least, most }
    }
}

/// What becomes of a clean run.
#[derive(Clone, Copy)]
enum Plan {
    Clean,
    Stale,
    Cyclic,
    Wide,
    Weak,
    Mutated,
    Scrambled,
}

/// A table for a check: race-free, racing or inconsistent, nearly always
/// admissible.
pub fn checkable(random: &mut Random, size: Size) -> Table {
    // Of many rows, few changes leave a run race-free.
    let clean = if size.most > 64 { 25 } else { 10 };
    let plan = match random.below(90) {
        _ if random.percent(clean) => Plan::Clean,
        0..=29 => Plan::Stale,
        30..=41 => Plan::Cyclic,
        42..=64 => Plan::Weak,
        65..=84 => Plan::Mutated,
        _ => Plan::Scrambled,
    };
    let mut table = planned(random, size, plan);
    count_some(random, &mut table);
    shuffle_agents(random, &mut table);
    table
}

/// A table for a check that is race-free and consistent, with few exceptions.
pub fn clean(random: &mut Random, size: Size) -> Table {
    let mut table = planned(random, size, Plan::Clean);
    count_some(random, &mut table);
    shuffle_agents(random, &mut table);
    table
}

/// A table for a fill: like one for a check, with blanks in most of them.
pub fn fillable(random: &mut Random, size: Size) -> Table {
    let clean = if size.most > 64 { 35 } else { 25 };
    let plan = match random.below(75) {
        _ if random.percent(clean) => Plan::Clean,
        0..=14 => Plan::Cyclic,
        15..=29 => Plan::Stale,
        30..=44 => Plan::Wide,
        45..=54 => Plan::Weak,
        55..=71 => Plan::Mutated,
        _ => Plan::Scrambled,
    };
    let table = planned(random, size, plan);
    let mut table = with_blanks(random, table);
    count_some(random, &mut table);
    shuffle_agents(random, &mut table);
    table
}

/// Has every third table's ranks counted.
pub(crate) fn count_some(random: &mut Random, table: &mut Table) {
    if random.percent(33) {
        count_ranks(random, table);
    }
}

fn planned(random: &mut Random, size: Size, plan: Plan) -> Table {
    let mut run_size = size;
    if let Plan::Stale = plan {
        // Leaves room for one more write.
        run_size.most = size.least.max(size.most.saturating_sub(1));
    }
    let mut table = run(random, run_size);
    let is_done = match plan {
        Plan::Clean => true,
        Plan::Stale => make_stale(random, &mut table, size.most),
        Plan::Cyclic => make_cyclic(random, &mut table),
        Plan::Wide => widen_read(random, &mut table),
        Plan::Scrambled => scramble(random, &mut table),
        Plan::Weak | Plan::Mutated => false,
    };
    match plan {
        Plan::Mutated => mutate_some(random, &mut table),
        _ if !is_done => weaken(random, &mut table),
        _ => (),
    }
    table
}

/// A race-free and consistent run of the wanted size, with few exceptions.
fn run(random: &mut Random, size: Size) -> Table {
    let agents = agents(random);
    // Of many episodes one would race nearly always.
    let is_careful = size.most > 48 && random.percent(80);
    run_of(random, size, agents, |random, ground, places| {
        episode(random, ground, places, is_careful)
    })
}

/// A run of the wanted size put together from episodes.
pub(crate) fn run_of(
    random: &mut Random,
    size: Size,
    agents: Vec<[u16; 3]>,
    episode: impl Fn(&mut Random, &mut Ground, &[[u16; 3]]) -> Vec<Row>,
) -> Table {
    let mut ground = Ground::new(random);
    let mut table = Table::new(&agents, &[]);
    let row_count = random.between(size.least, size.most);
    for _ in 0..10 * row_count {
        let mut rest = ground;
        let rows = episode(random, &mut rest, &table.agents);
        if table.rows.len() + rows.len() <= row_count {
            append(random, &mut table, rows);
            ground = rest;
        }
    }
    while table.rows.len() < size.least {
        let rows = episode(random, &mut ground, &table.agents);
        append(random, &mut table, rows);
        // Sources name earlier rows here, so every first part stands alone.
        table.rows.truncate(row_count);
    }
    repair(random, &mut table);
    table
}

/// Few agents near to each other, or more of them farther apart.
pub(crate) fn agents(random: &mut Random) -> Vec<[u16; 3]> {
    let count = random.pick(&[2, 2, 3, 3, 4, 5, 8, 16, MAX_AGENTS]);
    let ranges = random.pick(&[[1, 1, 2], [1, 1, 1], [1, 2, 2], [2, 2, 2], [1, 1, 3]]);
    let agent = |random: &mut Random| ranges.map(|range| random.below(range) as u16);
    (0..count).map(|_| agent(random)).collect()
}

pub(crate) fn append(random: &mut Random, table: &mut Table, rows: Vec<Row>) {
    let first = table.rows.len() as u16;
    for mut row in rows {
        if row.source != INITIAL {
            row.source += first;
        }
        table.rows.push(row);
    }
    if random.percent(50) {
        interleave(random, table);
    }
}

/// Moves rows of different agents and places past each other. Rows that
/// share bytes keep their order, and so do the rows of one agent.
fn interleave(random: &mut Random, table: &mut Table) {
    if table.rows.len() < 2 {
        return;
    }
    let mut order: Vec<usize> = (0..table.rows.len()).collect();
    for _ in 0..2 * order.len() {
        let place = random.below(order.len() - 1);
        let (first, second) = (table.rows[order[place]], table.rows[order[place + 1]]);
        if first.agent != second.agent && !first.overlaps(second) {
            order.swap(place, place + 1);
        }
    }
    reorder(table, &order);
}

/// Lists rows of different agents in any order: only program order counts,
/// so sources may name later rows.
pub(crate) fn shuffle_agents(random: &mut Random, table: &mut Table) {
    if table.rows.len() < 2 || random.percent(50) {
        return;
    }
    let mut order: Vec<usize> = (0..table.rows.len()).collect();
    for _ in 0..4 * order.len() {
        let place = random.below(order.len() - 1);
        if table.rows[order[place]].agent != table.rows[order[place + 1]].agent {
            order.swap(place, place + 1);
        }
    }
    reorder(table, &order);
}

pub(crate) fn mutate_some(random: &mut Random, table: &mut Table) {
    for _ in 0..random.pick(&[1, 1, 1, 2, 2, 3, 5]) {
        mutate(random, table);
    }
}

/// So many mutations that little of the run is left.
fn scramble(random: &mut Random, table: &mut Table) -> bool {
    for _ in 0..2 * table.rows.len() {
        mutate(random, table);
    }
    true
}

/// Widens a blank read, so that maybe no single write covers it, and tells
/// whether there was one.
fn widen_read(random: &mut Random, table: &mut Table) -> bool {
    let reads = rows_that(table, |row| row.kind == kind::PLAIN_READ);
    if reads.is_empty() {
        return false;
    }
    let row = &mut table.rows[random.pick(&reads)];
    row.source = BLANK;
    row.length = (row.length + random.pick(&[1, 2, 3])).min(16);
    repair(random, table);
    true
}

/// The table with blanks in the place of no plain sources, of some or of all.
pub(crate) fn with_blanks(random: &mut Random, mut table: Table) -> Table {
    let share = random.pick(&[0, 30, 60, 60, 100]);
    for row in &mut table.rows {
        if row.kind == kind::PLAIN_READ && random.percent(share) {
            row.source = BLANK;
        }
    }
    table
}
