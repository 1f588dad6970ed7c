//! What a refusal means, what stands in the row that it names, and what is
//! wrong with it.

use crate::blank;
use crate::fault::{fault_words, length_words};
use crate::show::{cells, columns, header};
use mend::{Judge, Run};
use second::{Fault, State};
use std::cell::RefCell;
use stramashly::FillAnswer;

/// Why not even a fill takes a table, if that is so.
pub fn refusal(table: &[u8], checker: &mut dyn Judge) -> Option<String> {
    let answer = checker.fill(table);
    let FillAnswer::Refused { number, row } = answer else {
        return None;
    };
    let mut text = format!("{answer}\n");
    for line in lines(table, number, usize::from(row)) {
        text += &line;
        text.push('\n');
    }
    Some(text)
}

/// A check's refusal: a fill is asked about blanks.
pub fn check_lines(table: &[u8], number: u16, row: usize, checker: &mut dyn Judge) -> Vec<String> {
    let faults = faults(table, number, row);
    let mut lines = fault_lines(table, number, row, &faults);
    if faults.contains(&Fault::Blank { is_plain: true }) {
        lines.extend(blank::lines(table, checker));
    }
    lines
}

/// The refusal's meaning, what the table holds there, then each fault.
pub fn lines(table: &[u8], number: u16, row: usize) -> Vec<String> {
    let faults = faults(table, number, row);
    fault_lines(table, number, row, &faults)
}

/// A state is large, and one serves every table of a thread.
fn faults(table: &[u8], number: u16, row: usize) -> Vec<Fault> {
    thread_local!(static STATE: RefCell<State> = RefCell::new(State::new()));
    STATE.with_borrow_mut(|state| state.faults(table, number, row))
}

fn fault_lines(table: &[u8], number: u16, row: usize, faults: &[Fault]) -> Vec<String> {
    let run = Run::of(table);
    let mut lines = vec![meaning(number).to_string()];
    if is_of_a_row(number) && row < run.rows.len() {
        lines.push(format!("Row {row} holds: {}.", held(&run, row)));
    } else if let Some(words) = header(table) {
        let bytes = length_words(table.len());
        lines.push(format!("The header says {words}; the table has {bytes}."));
    }
    let faults = faults.iter().map(|fault| fault_words(&run, row, fault));
    lines.extend(faults.map(|fault| format!("  {fault}")));
    lines
}

/// Refusals of the header name row 0, which says nothing of that row.
pub fn is_of_a_row(number: u16) -> bool {
    matches!(number, 5..=10 | 14 | 15 | 19 | 20)
}

fn meaning(number: u16) -> &'static str {
    match number {
        1 => "A table has at least 8 bytes.",
        2 => "The version (byte 4) must be known, and byte 7 must be 0.",
        3 => "There are more agents or rows than a table may have.",
        4 => "The count in bytes 0 to 3, or the length, doesn't fit the agents and rows, and in version 3 the dependencies.",
        5 => "A code has no meaning: kind, agent, order, scope, classes, flags or class.",
        6 => "The fields don't fit the row's kind.",
        7 => "An access has 1 to 16 bytes up to byte 65535; an atomic has 4 or 8, and its start is a multiple of that.",
        8 => "A reference has one class, and an earlier access has given it another.",
        9 => "A read's source is the initial value or another row that writes all its bytes; only a fill takes a blank, on a plain read.",
        10 => "Atomic writers that are mutually-ordered have different ranks.",
        11 => "A lent buffer is too short.",
        12 => "The two numbers aren't two different moments of the table.",
        13 => "A buffer is shorter than the table to be written.",
        14 => "Rows of one control barrier's instance have one execution scope, different agents, and all these in one instance of that scope.",
        15 => "Counted ranks of one place's writers fit in some 32768 counts in a row, past 65535 and on from 0 if need be.",
        16 => "An agent is a shader, a host or a queue.",
        17 => "There are more dependencies than a table may have.",
        18 => "A dependency joins two rows of the table.",
        19 => "A host has plain rows only; a queue has availability, visibility and domain operations only, and nobody else has these.",
        20 => "An operation of a queue has a kind and an agent; its other fields are 0 and its source is 65535.",
        40 => "A second piece is whole rows, 16 bytes each.",
        _ => "This number isn't known here.",
    }
}

/// A row's fields that say something; a question mark follows a code that
/// has no meaning.
fn held(run: &Run, row: usize) -> String {
    let cells = cells(run, row);
    let said = columns(run).into_iter().zip(&cells).skip(1);
    said.filter(|(_, cell)| *cell != "-")
        .map(|(name, cell)| format!("{name} {cell}"))
        .collect::<Vec<_>>()
        .join("; ")
}
