//! One table told in words or as a picture, and the status that goes with it.

use crate::answers::Answer;
use crate::explained;
use crate::read::Given;
use crate::verdict::Verdict;
use crate::Status;
use draw::{draw_noted, page};
use stramashly::Checker;
use text::{write, write_lines, Refusal};
use words::{explain_noted, refusal, show_noted, why};

/// How a table is told.
#[derive(Clone, Copy, Debug, PartialEq, Eq)]
pub enum Telling {
    Show,
    /// As text that can be read again.
    Text,
    /// As JSON lines.
    Lines,
    /// In sentences; at length if all is wanted.
    Explain {
        is_all: bool,
    },
    /// An explanation as an object.
    Object,
    /// An explanation as a page.
    Page {
        is_all: bool,
    },
    /// A picture; of a large run it has the rows that matter, unless all are
    /// wanted.
    Draw {
        is_all: bool,
    },
    /// Why one moment happens before another.
    Why {
        first: u16,
        second: u16,
    },
}

/// What was told: the answer's verdict where the text begins with an answer, and
/// the status.
pub type Told = (Option<Verdict>, Status);

/// Appends the words or the picture to the text; the reason if a refused
/// table has none. An object has the file's name if there is one.
pub fn tell(
    checker: &mut Checker,
    telling: Telling,
    (given, file): (&Given, Option<&str>),
    text: &mut String,
) -> Result<Told, String> {
    let Given { table, notes, .. } = given;
    let fine = (None, Status::Fine);
    match telling {
        Telling::Object => {
            let explanation = explain_noted(table, notes, checker, false);
            *text += &format!("{}\n", explained::object(file, &explanation));
            Ok(told(&explanation.answer.borrowed()))
        }
        Telling::Text => said(text, write(table, notes)).map(|()| fine),
        Telling::Lines => said(text, write_lines(table, notes)).map(|()| fine),
        Telling::Show => Ok((None, shown(checker, given, text))),
        Telling::Explain { is_all } => {
            let explanation = explain_noted(table, notes, checker, is_all);
            *text += &explanation.text();
            Ok(told(&explanation.answer.borrowed()))
        }
        Telling::Page { is_all } => {
            let explanation = explain_noted(table, notes, checker, is_all);
            *text += &page(table, &explanation, is_all);
            Ok(told(&explanation.answer.borrowed()))
        }
        Telling::Why { first, second } => {
            let (answer, lines) = why(table, first, second, checker);
            *text += &format!("{answer}\n");
            lines.iter().for_each(|line| *text += &format!("{line}\n"));
            Ok(told(&answer.borrowed()))
        }
        Telling::Draw { is_all } => {
            let picture = draw_noted(table, notes, checker, is_all);
            *text += &picture.map_err(|answer| format!("{answer}; there is no picture"))?;
            Ok(fine)
        }
    }
}

/// The answer's verdict, and the status that goes with it.
fn told(answer: &dyn Answer) -> Told {
    let verdict = answer.verdict();
    (Some(verdict), verdict.status())
}

/// Appends a table in words, and why it is refused if it is.
fn shown(checker: &mut Checker, given: &Given, text: &mut String) -> Status {
    *text += &show_noted(&given.table, &given.notes);
    let refusal = refusal(&given.table, checker);
    *text += refusal.as_deref().unwrap_or_default();
    refusal.map_or(Status::Fine, |_| Status::Refused)
}

/// Appends a table's text; only what a fill takes has one.
fn said(text: &mut String, written: Result<String, Refusal>) -> Result<(), String> {
    let refused = |refusal| format!("{refusal}; a refused table has no text");
    *text += &written.map_err(refused)?;
    Ok(())
}
