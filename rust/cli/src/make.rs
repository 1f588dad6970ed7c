//! A table made: of its text, of another whose blanks are filled, or by steps.

use crate::answers::Answer;
use crate::read::{Given, Unread};
use crate::Status;
use format::digits;
use mend::{edited, parse_steps, stepped, Edit, Field, Run, Step};
use stramashly::{Checker, FillAnswer, BLANK};
use text::{remade, write, write_lines, Form};

/// How a table is made.
#[derive(Clone, Debug, PartialEq, Eq)]
pub enum Making {
    /// Of text or JSON lines.
    Read,
    /// Each blank has its source.
    Filled,
    /// Steps are made one after the other.
    Edited(Vec<Step>),
}

/// A new table, as bytes or in the form of the old one, and what is to be told
/// of it.
pub struct Made {
    pub table: Vec<u8>,
    pub status: Status,
    pub told: Option<String>,
}

/// The new table; the status and the reason if there is none.
pub fn make(
    checker: &mut Checker,
    making: &Making,
    given: &Given,
) -> Result<Made, (Status, Unread)> {
    let made = |table, status, told| Made {
        table,
        status,
        told,
    };
    let table = &given.table;
    match making {
        Making::Read => read(given).map(|table| made(table, Status::Fine, None)),
        Making::Filled => filled(checker, table).map(|table| made(table, Status::Fine, None)),
        Making::Edited(steps) => {
            let stepped = stepped(table, steps);
            let table = stepped.map_err(|reason| (Status::Trouble, reason.into()))?;
            // What isn't well formed is handed out all the same: more steps may follow.
            match remade(&table) {
                Err(refusal) => {
                    let told = format!("made; it is {refusal}");
                    Ok(made(table, Status::Refused, Some(told)))
                }
                Ok(table) => Ok(made(said(given, table, steps), Status::Fine, None)),
            }
        }
    }
}

/// A new table in the form that the old one had, with its names, labels and
/// places.
fn said(given: &Given, table: Vec<u8>, steps: &[Step]) -> Vec<u8> {
    let notes = given.notes.stepped(steps);
    let text = match given.form {
        Some(Form::Text) => write(&table, &notes),
        Some(Form::Lines) => write_lines(&table, &notes),
        None => return table,
    };
    // A text is only refused where its table is.
    text.map_or(table, String::into_bytes)
}

/// The table of a text; a refusal is told at its row's place.
fn read(given: &Given) -> Result<Vec<u8>, (Status, Unread)> {
    let Some(draft) = &given.draft else {
        let reason = "neither text, which begins with `stramashly 1`, nor JSON lines";
        return Err((Status::Trouble, reason.to_string().into()));
    };
    match draft.refusal() {
        Some(trouble) => Err((Status::Refused, trouble.into())),
        None => Ok(given.table.clone()),
    }
}

fn filled(checker: &mut Checker, table: &[u8]) -> Result<Vec<u8>, (Status, Unread)> {
    let answer = checker.fill(table);
    let FillAnswer::Filled(sources) = answer else {
        let reason = format!("{answer}; there is no filled table");
        return Err((answer.verdict().status(), reason.into()));
    };
    let rows = Run::of(table).rows;
    let blanks = (0..rows.len()).filter(|row| rows[*row].source == BLANK);
    let edits = blanks.map(|row| Edit::new(row, Field::Source, sources[row]));
    let filled = remade(&edited(table, &edits.collect::<Vec<_>>()));
    filled.map_err(|refusal| (Status::Refused, refusal.to_string().into()))
}

/// The steps of an edit: words like `row 2 flags 3`, several with semicolons
/// between them.
pub fn steps(words: &[String]) -> Result<Vec<Step>, String> {
    let steps = parse_steps(&words.join(";"))?;
    if steps.is_empty() {
        return Err("edit takes one table and what is to be changed, like 'row 2 flags 3'".into());
    }
    Ok(steps)
}

/// Bytes as hex digits and a line's end.
pub fn hex_line(bytes: &[u8]) -> String {
    digits(bytes) + "\n"
}
