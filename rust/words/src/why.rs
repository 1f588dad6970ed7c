//! `derive --words`: why one moment happens before another, or what is missing.

use crate::derivation::derivation_lines;
use crate::refusal;
use crate::told::Checked;
use mend::{edited, Edit, Field, Judge, Notes, Relations, Run};
use second::{Chains, BLANK, INITIAL};
use stramashly::{DeriveAnswer, OwnedDeriveAnswer};

/// The answer of `derive`, and its steps in words, or where a chain is
/// missing, or what the refusal means.
pub fn why(
    table: &[u8],
    first: u16,
    second: u16,
    checker: &mut dyn Judge,
) -> (OwnedDeriveAnswer, Vec<String>) {
    let answer = checker.derive(table, first, second);
    let (from, to) = (usize::from(first), usize::from(second));
    let lines = match answer {
        DeriveAnswer::Derivation(derivation) => {
            derivation_lines(&Run::of(table).rows, from, derivation)
        }
        DeriveAnswer::NotBefore => missing(table, from, to).into_iter().collect(),
        DeriveAnswer::Refused { number, row } => refusal::lines(table, number, row.into()),
        _ => Vec::new(),
    };
    (answer.into_owned(), lines)
}

/// Where the chain from one moment to another is missing.
fn missing(table: &[u8], from: usize, to: usize) -> Option<String> {
    let run = Run::of(table);
    let blanks = (0..run.rows.len()).filter(|row| run.rows[*row].source == BLANK);
    let edits = blanks.map(|row| Edit::new(row, Field::Source, INITIAL));
    // What happens before what doesn't depend on plain sources.
    let table = edited(table, &edits.collect::<Vec<_>>());
    let relations = Relations::of(Chains::Off, &table, &Notes::default());
    let checked = Checked::from(&relations);
    checked.not_before(from / 3, to / 3, from, &[to])
}
