//! One table judged: its answer as text, and the status that goes with it.

use crate::answers::{put, Answer, ShownRow};
use crate::question::Question;
use crate::verdict::Verdict;
use crate::writing::{rows, write};
use format::Object;
use mend::Notes;
use std::fmt::{Display, Write};
use stramashly::{row_of_pieces, Checker};

/// How an answer is written.
#[derive(Clone, Copy)]
pub enum Form<'a> {
    Plain,
    /// As an object, with the file's name if there are several.
    Json {
        file: Option<&'a str>,
        /// What the table's text says of rows.
        notes: Option<&'a Notes>,
    },
}

impl<'a> Form<'a> {
    /// The file's name that an object has.
    pub fn file(self) -> Option<&'a str> {
        match self {
            Form::Json { file, .. } => file,
            Form::Plain => None,
        }
    }
}

/// Appends the answer and a line's end to the text. The second piece of the table
/// may be empty.
pub fn judge(
    checker: &mut Checker,
    question: &Question,
    pieces: [&[u8]; 2],
    form: Form,
    text: &mut String,
) -> Verdict {
    match question {
        Question::Check => append(text, form, &checker.check(pieces)),
        Question::Fill => append(text, form, &checker.fill(pieces)),
        Question::Report => append(text, form, &checker.report(pieces)),
        Question::Derive { first, second } => {
            append(text, form, &checker.derive(pieces, *first, *second))
        }
        Question::Accepts {
            first,
            second,
            claim,
        } => {
            let answer = Checker::accepts(pieces, *first, *second, claim.borrowed());
            append(text, form, &answer)
        }
        Question::Row { row } => append(text, form, &ShownRow(row_of_pieces(pieces, *row))),
        // These are of one piece.
        Question::Rows => append(text, form, &rows(pieces[0])),
        Question::Write(writing) => append(text, form, &write(writing)),
    }
}

/// Appends why there is no answer.
pub fn append_trouble(text: &mut String, form: Form, reason: &str) {
    match form {
        Form::Plain => append_line(text, &format_args!("error {reason}")),
        Form::Json { file, .. } => {
            let mut object = Object::default();
            if let Some(file) = file {
                object.text("file", file);
            }
            object.text("verdict", "error");
            object.text("reason", reason);
            append_line(text, &object);
        }
    }
}

fn append(text: &mut String, form: Form, answer: &dyn Answer) -> Verdict {
    match form {
        Form::Plain => append_line(text, &answer),
        Form::Json { file, notes } => {
            let mut object = Object::default();
            if let Some(file) = file {
                object.text("file", file);
            }
            put(answer, &mut object);
            if let Some(notes) = notes {
                put_places(&mut object, notes, &answer.rows());
            }
            append_line(text, &object);
        }
    }
    answer.verdict()
}

/// The labels and places of the rows that an answer names, if there are any.
fn put_places(object: &mut Object, notes: &Notes, rows: &[u16]) {
    let places = rows.iter().filter_map(|row| {
        let (label, place) = (notes.label((*row).into()), notes.place((*row).into()));
        let mut place_object = Object::default();
        place_object.put("row", *row);
        if let Some(label) = label {
            place_object.text("label", label);
        }
        if let Some(place) = place {
            place_object.text("at", &place.to_string());
        }
        (label.is_some() || place.is_some()).then_some(place_object)
    });
    let places: Vec<Object> = places.collect();
    if !places.is_empty() {
        object.list("places", &places);
    }
}

fn append_line(text: &mut String, shown: &dyn Display) {
    // Writing to a string can't fail.
    let _ = writeln!(text, "{shown}");
}
