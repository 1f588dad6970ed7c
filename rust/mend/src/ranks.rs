//! Ranks for atomic writers that there weren't, and for those that another
//! writer of their place has.

use crate::run::Run;
use second::table::Row;

/// The other atomic writers of an atomic row's place.
pub fn writers_of_place(run: &Run, row: usize) -> Vec<usize> {
    let rows = &run.rows;
    let place = |row: Row| (row.start, row.length, row.reference);
    (0..rows.len())
        .filter(|writer| *writer != row && rows[*writer].is_atomic_writer())
        .filter(|writer| place(rows[*writer]) == place(rows[row]))
        .collect()
}

/// The writer of the latest rank.
pub fn last_writer(run: &Run, writers: Vec<usize>) -> Option<usize> {
    let later = |one: usize, other: usize| {
        let is_later = run.is_later(run.rows[other].rank, run.rows[one].rank);
        if is_later {
            other
        } else {
            one
        }
    };
    writers.into_iter().reduce(later)
}

/// Whether another writer of the place has the row's rank, which a wider
/// scope would forbid.
pub fn has_twin(run: &Run, row: usize) -> bool {
    let rows = &run.rows;
    let is_twin = |writer: &usize| rows[*writer].rank == rows[row].rank;
    rows[row].is_atomic_writer() && writers_of_place(run, row).iter().any(is_twin)
}

/// A rank after those of all atomic writers, or of the place's where they are
/// counted; `more` sets new ones apart.
pub fn free_rank(run: &Run, row: usize, more: u16) -> u16 {
    if run.is_counted {
        let last = last_writer(run, writers_of_place(run, row));
        return last.map_or(more, |last| run.rows[last].rank.wrapping_add(more));
    }
    let ranks = run.rows.iter().map(|fields| fields.rank);
    ranks.max().unwrap_or(0).saturating_add(more)
}
