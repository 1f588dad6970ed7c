//! L5 step by step: the way of a write through the domains of host and
//! device, as far as a table has it, and what is missing of it.

use crate::derivation::at;
use crate::names;
use crate::told::Checked;
use mend::Stop;
use second::table::*;

impl Checked<'_> {
    /// What L5 lacks to order X before Y.
    pub fn l5_lacks(&self, x: usize, y: usize) -> Vec<String> {
        if !self.run.rows[x].writes() {
            return vec![format!("row {x} doesn't write")];
        }
        let way = self.way(x, y);
        let mut lacks = Vec::new();
        for (place, stop) in way.iter().enumerate().skip(1) {
            match *stop {
                Stop::Missing(kind) => lacks.push(missing_words(&way, place, kind)),
                Stop::Row(row) if self.is_gap(way[place - 1], *stop) => {
                    let Stop::Row(from) = way[place - 1] else {
                        continue;
                    };
                    lacks.push(self.gap_of_rows(from, row));
                }
                Stop::Row(_) => (),
            }
        }
        lacks
    }

    /// What L4 lacks to order X before Y, rows that share a byte.
    pub fn l4_lacks(&self, x: usize, y: usize) -> Vec<String> {
        let row = self.run.rows[x];
        let mut lacks = Vec::new();
        if !row.reads() {
            lacks.push(format!("row {x} doesn't read"));
        } else if row.writes() {
            lacks.push(format!("row {x} writes"));
        } else if !self.state.system_rules(x, y)[0] {
            lacks.push(format!(
                "no dependencies lead from row {x} to row {y}, and nothing else serves"
            ));
        }
        lacks
    }

    /// Two stops that are there: the first doesn't happen before the second.
    fn gap_of_rows(&self, from: usize, to: usize) -> String {
        let rows = &self.run.rows;
        let name = |row: usize| match rows[row].is_queue_operation() {
            true => format!("row {row}, the {}", names::kind(rows[row].kind)),
            false => format!("row {row}"),
        };
        let mut words = format!("{} doesn't happen before {}", name(from), name(to));
        let later = (from + 1..rows.len()).find(|row| {
            rows[*row].agent == rows[from].agent && self.state.happens_before(at(*row), at(to))
        });
        if let Some(row) = later {
            words += &format!(
                ": row {row} does, but that doesn't carry what comes before it in program order"
            );
        }
        words
    }

    /// Why L5 orders X before Y: the operations that it goes by.
    pub fn l5_words(&self, x: usize, stops: &[usize]) -> String {
        let words = stops.iter().map(|row| {
            let kind = self.run.rows[*row].kind;
            let does = match kind {
                AVAILABLE_TO_HOST => "makes it available to the host domain",
                AVAILABLE_TO_DEVICE => "makes it available to the device domain",
                VISIBLE_FROM_HOST => "makes it visible from the host domain",
                VISIBLE_FROM_DEVICE => "makes it visible from the device domain",
                HOST_TO_DEVICE => "carries it from host to device",
                _ => "carries it from device to host",
            };
            format!("row {row} {does}")
        });
        let words: Vec<String> = words.collect();
        format!("row {x} writes, {}", names::listed(&words))
    }
}

/// An operation that is missing, between the nearest rows that there are.
fn missing_words(way: &[Stop], place: usize, kind: u8) -> String {
    let row = |stop: &Stop| match stop {
        Stop::Row(row) => Some(*row),
        Stop::Missing(_) => None,
    };
    let before = way[..place].iter().rev().find_map(row);
    let after = way[place..].iter().find_map(row);
    let (before, after) = (before.unwrap_or(0), after.unwrap_or(0));
    let kind = names::kind(kind);
    format!("no {kind} leads from row {before} on to row {after}")
}
