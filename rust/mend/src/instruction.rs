//! Rows that are one instruction of the program: those of one control
//! barrier's instance, and those of one place in a file. What has neither
//! stays a row.

use crate::notes::Place;
use crate::run::Run;
use std::collections::HashMap;

/// The rows that an instruction is recorded in, in their order.
#[derive(Clone, Debug, PartialEq, Eq)]
pub struct Instruction {
    pub rows: Vec<usize>,
}

/// What two rows of one instruction have in common.
#[derive(PartialEq, Eq, Hash)]
enum Mark<'a> {
    Instance(u16),
    /// A line may hold several: of other kinds, by other references.
    Place(&'a Place, u8, u16),
}

/// Every row's instruction, by its first row.
pub fn instructions(run: &Run) -> Vec<Instruction> {
    let mut firsts: Vec<usize> = (0..run.rows.len()).collect();
    let mut marked: HashMap<Mark, usize> = HashMap::new();
    for row in 0..run.rows.len() {
        for mark in marks(run, row) {
            let other = *marked.entry(mark).or_insert(row);
            join(&mut firsts, row, other);
        }
    }
    let mut found: Vec<Instruction> = Vec::new();
    let mut places: HashMap<usize, usize> = HashMap::new();
    for (row, first) in firsts.into_iter().enumerate() {
        let place = *places.entry(first).or_insert_with(|| {
            found.push(Instruction { rows: Vec::new() });
            found.len() - 1
        });
        found[place].rows.push(row);
    }
    found
}

fn marks(run: &Run, row: usize) -> Vec<Mark<'_>> {
    let fields = run.rows[row];
    if fields.is_queue_operation() {
        return Vec::new();
    }
    let mut marks = Vec::new();
    if fields.is_control_barrier() {
        marks.push(Mark::Instance(fields.instance()));
    }
    let place = run.notes.place(row);
    marks.extend(place.map(|place| Mark::Place(place, fields.kind, fields.reference)));
    marks
}

/// Gives the rows of both one first row.
fn join(firsts: &mut [usize], row: usize, other: usize) {
    let (one, two) = (firsts[row], firsts[other]);
    let (first, last) = (one.min(two), one.max(two));
    for entry in firsts.iter_mut().filter(|entry| **entry == last) {
        *entry = first;
    }
}

#[cfg(test)]
mod tests {
    use super::*;
    use crate::notes::{Notes, RowNote};
    use second::table::{Row, ATOMIC_WRITE, CONTROL_BARRIER};

    fn run(rows: &[(u8, u16, u16, Option<u32>)]) -> Run {
        let row = |(kind, start, reference, _): &(u8, u16, u16, Option<u32>)| Row {
            kind: *kind,
            start: *start,
            reference: *reference,
            ..Row::default()
        };
        let note = |(.., line): &(u8, u16, u16, Option<u32>)| RowNote {
            place: line.map(|line| Place {
                file: "a.comp".to_string(),
                line,
                column: None,
            }),
            ..RowNote::default()
        };
        Run {
            rows: rows.iter().map(row).collect(),
            notes: Notes {
                rows: rows.iter().map(note).collect(),
                ..Notes::default()
            },
            ..Run::default()
        }
    }

    fn rows(run: &Run) -> Vec<Vec<usize>> {
        let all = instructions(run).into_iter();
        all.map(|instruction| instruction.rows).collect()
    }

    #[test]
    fn instances_and_places_join_rows() {
        let barriers = [
            (CONTROL_BARRIER, 1, 0, Some(14)),
            (CONTROL_BARRIER, 2, 0, None),
            (CONTROL_BARRIER, 1, 0, None),
            (CONTROL_BARRIER, 2, 0, Some(14)),
            (CONTROL_BARRIER, 3, 0, Some(15)),
        ];
        assert_eq!(rows(&run(&barriers)), [vec![0, 1, 2, 3], vec![4]]);
    }

    #[test]
    fn a_line_may_hold_several() {
        let accesses = [
            (ATOMIC_WRITE, 0, 1, Some(3)),
            (ATOMIC_WRITE, 4, 1, Some(3)),
            (ATOMIC_WRITE, 0, 2, Some(3)),
            (1, 0, 1, Some(3)),
            (1, 0, 1, None),
            (1, 0, 1, None),
        ];
        let expected = [vec![0, 1], vec![2], vec![3], vec![4], vec![5]];
        assert_eq!(rows(&run(&accesses)), expected);
    }
}
