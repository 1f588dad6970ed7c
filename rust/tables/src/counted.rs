//! Counted ranks: counters that run out and begin again.

use crate::builder::{Row, Table};
use crate::mutation::{repair, rows_that};
use crate::random::Random;

/// How many consecutive counts the ranks of one place fit in.
const RUN: u16 = 32768;

/// Turns a table into one of counted ranks: the counter of each place goes on
/// from another count, most often so that it runs out among its writers.
pub(crate) fn count_ranks(random: &mut Random, table: &mut Table) {
    table.version = 2;
    repair(random, table);
    let writers = rows_that(table, Row::is_atomic_writer);
    for (place, row) in writers.iter().enumerate() {
        let first = table.rows[*row];
        let is_first = |other: &usize| !table.rows[*other].ranks_with(first);
        if writers[..place].iter().all(is_first) {
            count_place(random, table, first);
        }
    }
}

/// Moves on the ranks of all the writers of one place.
fn count_place(random: &mut Random, table: &mut Table, first: Row) {
    let members = rows_that(table, |row| row.ranks_with(first));
    if random.percent(20) {
        stretch(table, &members);
    }
    let middle = table.rows[random.pick(&members)].rank;
    let any = random.word() as u16;
    let further = random.pick(&[0, middle.wrapping_neg(), middle.wrapping_neg(), any]);
    for row in members {
        table.rows[row].rank = table.rows[row].rank.wrapping_add(further);
    }
}

/// Moves the latest of some writers to the end of the run that the earliest
/// begins.
fn stretch(table: &mut Table, members: &[usize]) {
    let rank = |row: usize| table.rows[row].rank;
    let ranks: Vec<u16> = members.iter().map(|row| rank(*row)).collect();
    let Some(earliest) = begin(&ranks) else {
        return;
    };
    let age = |rank: u16| rank.wrapping_sub(earliest);
    let latest = ranks.iter().map(|rank| age(*rank)).max().unwrap_or(0);
    for row in members {
        if latest > 0 && age(table.rows[*row].rank) == latest {
            table.rows[*row].rank = earliest.wrapping_add(RUN - 1);
        }
    }
}

/// The rank that begins a run of all, if they fit in one.
fn begin(ranks: &[u16]) -> Option<u16> {
    let fits = |first: &u16| ranks.iter().all(|rank| rank.wrapping_sub(*first) < RUN);
    ranks.iter().copied().find(fits)
}

/// Gives a writer that fits in no run with the earlier ones of its place the
/// rank of one of them; where that is taken, another rank will be found.
pub(crate) fn repair_run(table: &mut Table, place: usize) {
    let row = table.rows[place];
    if table.version < 2 || !row.is_atomic_writer() {
        return;
    }
    let earlier: Vec<u16> = table.rows[..place]
        .iter()
        .filter(|other| other.ranks_with(row))
        .map(|other| other.rank)
        .collect();
    let mut all = earlier.clone();
    all.push(row.rank);
    if let (Some(first), None) = (begin(&earlier), begin(&all)) {
        table.rows[place].rank = first;
    }
}
