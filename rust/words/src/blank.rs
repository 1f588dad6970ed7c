//! What a fill makes of a table's blanks: their sources, or why one of them
//! can't have any.

use crate::explain::shown;
use crate::inconsistent;
use crate::names;
use crate::refusal;
use crate::told::Checked;
use mend::{edited, Edit, Field, Judge, Notes, Relations, Run};
use second::{BLANK, INITIAL};
use stramashly::FillAnswer;

/// What `fill` answers of a table with blanks, in sentences.
pub fn lines(table: &[u8], checker: &mut dyn Judge) -> Vec<String> {
    let blanks = blanks(&Run::of(table));
    let answer = checker.fill(table);
    let told = format!("`stramashly fill` answers `{answer}`");
    match answer {
        FillAnswer::Filled(sources) => {
            let named = blanks.iter().map(|row| {
                let source = names::source_named(sources[*row]);
                format!("row {row} read {source}")
            });
            let named: Vec<String> = named.collect();
            vec![format!(
                "{told}: {}, and no other choice makes the run possible.",
                names::listed(&named)
            )]
        }
        FillAnswer::Race { first, second, .. } => vec![format!(
            "{told}: rows {first} and {second} race, whatever the blanks are."
        )],
        FillAnswer::Refused { number, row } => {
            let mut lines = vec![format!("{told}: that isn't about blanks.")];
            lines.extend(refusal::lines(table, number, row.into()));
            lines
        }
        FillAnswer::None => {
            let mut lines = vec![format!(
                "{told}: no choice of sources makes the run possible."
            )];
            lines.extend(none_lines(table, &blanks, checker));
            lines
        }
        _ => vec![format!("{told}.")],
    }
}

fn blanks(run: &Run) -> Vec<usize> {
    let rows = run.rows.iter().enumerate();
    let blanks = rows.filter(|(_, row)| row.reads() && row.source == BLANK);
    blanks.map(|(row, _)| row).collect()
}

/// The table with these sources for its blanks.
fn filled(table: &[u8], blanks: &[usize], sources: &[u16]) -> Vec<u8> {
    let edits = blanks.iter().zip(sources);
    let edits = edits.map(|(row, source)| Edit::new(*row, Field::Source, *source));
    edited(table, &edits.collect::<Vec<_>>())
}

/// The blanks that nothing can stand in, with the reason for each source; if
/// every blank alone could have one, what these contradict.
fn none_lines(table: &[u8], blanks: &[usize], checker: &mut dyn Judge) -> Vec<String> {
    // Location order reads no plain source.
    let initial = filled(table, blanks, &vec![INITIAL; blanks.len()]);
    let relations = Relations::of(checker.chains(), &initial, &Notes::default());
    let checked = Checked::from(&relations);
    let mut lines = Vec::new();
    let mut chosen = Vec::new();
    for reader in blanks {
        let sources: Vec<(u16, Option<String>)> = sources(checked.run, *reader)
            .into_iter()
            .map(|source| (source, checked.unfit_source(*reader, source)))
            .collect();
        if let Some((source, _)) = sources.iter().find(|(_, reason)| reason.is_none()) {
            chosen.push(*source);
        } else {
            lines.push(format!("Nothing can stand in row {reader}'s blank:"));
            let reasons = sources.iter().map(|(source, reason)| {
                let reason = reason.as_deref().unwrap_or_default();
                format!("  {}: {reason}", names::source_named(*source))
            });
            lines.extend(reasons);
        }
    }
    if lines.is_empty() {
        lines = contradiction(table, blanks, &chosen, checker);
    }
    lines
}

/// The initial value and the rows that write a byte of the reader's.
fn sources(run: &Run, reader: usize) -> Vec<u16> {
    let row = run.rows[reader];
    let writers = run.rows.iter().enumerate().filter(|(number, other)| {
        *number != reader && other.writes() && other.shares_a_byte_with(row)
    });
    let writers = writers.map(|(number, _)| number as u16);
    std::iter::once(INITIAL).chain(writers).collect()
}

/// What the sources that fit each blank alone contradict.
fn contradiction(
    table: &[u8],
    blanks: &[usize],
    chosen: &[u16],
    checker: &mut dyn Judge,
) -> Vec<String> {
    let table = filled(table, blanks, chosen);
    let named: Vec<String> = blanks
        .iter()
        .zip(chosen)
        .map(|(row, source)| format!("row {row} {}", names::source_named(*source)))
        .collect();
    let relations = Relations::of(checker.chains(), &table, &Notes::default());
    let checked = Checked::from(&relations);
    let answer = checker.check(&table);
    let mut lines = vec![format!(
        "Each blank alone could have a source ({}); with these, check answers `{answer}`.",
        names::listed(&named)
    )];
    lines.extend(inconsistent::lines(checked, &shown(checked, answer)));
    lines
}

impl Checked<'_> {
    /// Why a plain reader can't have read a source, by its own rows alone:
    /// a circle of two rows, or a write in between.
    fn unfit_source(&self, reader: usize, source: u16) -> Option<String> {
        if source == INITIAL {
            let (writer, byte) = self.writer_before(reader, |_| true)?;
            return Some(format!(
                "row {writer} had written byte {byte} before row {reader} read it"
            ));
        }
        let row = usize::from(source);
        let rows = &self.run.rows;
        if !rows[row].covers_all_bytes_of(rows[reader]) {
            let bytes = names::byte_words(rows[row]);
            return Some(format!("it writes {bytes} only"));
        }
        let mut shared = self.shared_bytes(row, reader).into_iter();
        if let Some(byte) = shared.find(|byte| self.state.location_order(reader, row, *byte)) {
            return Some(format!("row {reader} comes before it at byte {byte}"));
        }
        let is_over = |writer| self.state.modification_order(row, writer);
        if let Some((writer, byte)) = self.writer_before(reader, is_over) {
            return Some(format!(
                "row {writer}, after it in scoped modification order, comes before row {reader} at byte {byte}"
            ));
        }
        let over = (0..rows.len()).find_map(|writer| {
            let byte = self.overwritten_at(row, writer, reader)?;
            Some((writer, byte))
        });
        over.map(|(writer, byte)| {
            format!("row {writer} had written over its byte {byte} before row {reader}")
        })
    }

    /// A writer of the reader's that is ordered before it, and the byte.
    fn writer_before(&self, reader: usize, test: impl Fn(usize) -> bool) -> Option<(usize, u32)> {
        let writers = (0..self.run.rows.len())
            .filter(|writer| *writer != reader && self.run.rows[*writer].writes() && test(*writer));
        writers.into_iter().find_map(|writer| {
            let mut bytes = self.shared_bytes(writer, reader).into_iter();
            let byte = bytes.find(|byte| self.state.location_order(writer, reader, *byte))?;
            Some((writer, byte))
        })
    }

    /// A byte at which a writer comes between a source and its reader.
    fn overwritten_at(&self, source: usize, writer: usize, reader: usize) -> Option<u32> {
        let state = self.state;
        let is_writer = self.run.rows[writer].writes() && writer != source && writer != reader;
        let mut bytes = self.shared_bytes(source, reader).into_iter();
        bytes.find(|byte| {
            is_writer
                && state.location_order(source, writer, *byte)
                && state.location_order(writer, reader, *byte)
        })
    }
}
