//! What goes with each answer: its verdict, and its members in JSON, whose keys
//! are the words of `--help`.

use crate::verdict::Verdict;
use format::{digits, Object};
use std::fmt::{self, Display};
use stramashly::{
    AcceptsAnswer, CheckAnswer, Derivation, DeriveAnswer, FillAnswer, Refusal, ReportAnswer, Share,
};
use words::is_of_a_row;

/// An answer; `Display` is its plain line.
pub trait Answer: Display {
    fn verdict(&self) -> Verdict;

    /// Its members in JSON after the verdict.
    fn put(&self, object: &mut Object);

    /// The rows that it names.
    fn rows(&self) -> Vec<u16> {
        Vec::new()
    }
}

/// The members of an answer.
pub fn put(answer: &dyn Answer, object: &mut Object) {
    object.text("verdict", answer.verdict().word());
    answer.put(object);
}

/// A row's sixteen bytes, if a piece holds it.
pub struct ShownRow<'a>(pub Option<&'a [u8]>);

impl Display for ShownRow<'_> {
    fn fmt(&self, formatter: &mut fmt::Formatter) -> fmt::Result {
        match self.0 {
            Some(bytes) => write!(formatter, "{}", digits(bytes)),
            None => write!(formatter, "none"),
        }
    }
}

impl Answer for ShownRow<'_> {
    fn verdict(&self) -> Verdict {
        self.0.map_or(Verdict::NoRow, |_| Verdict::Row)
    }

    fn put(&self, object: &mut Object) {
        if let Some(bytes) = self.0 {
            object.text("bytes", &digits(bytes));
        }
    }
}

impl Answer for CheckAnswer<'_> {
    fn verdict(&self) -> Verdict {
        match self {
            CheckAnswer::RaceFree => Verdict::RaceFree,
            CheckAnswer::Race { .. } => Verdict::Race,
            CheckAnswer::Overwritten { .. } => Verdict::Overwritten,
            CheckAnswer::Cycle { .. } => Verdict::Cycle,
            CheckAnswer::Refused { .. } => Verdict::Refused,
            _ => Verdict::Unknown,
        }
    }

    fn put(&self, object: &mut Object) {
        match *self {
            CheckAnswer::Race {
                first,
                second,
                byte,
            } => put_race(object, first, second, byte),
            CheckAnswer::Overwritten {
                reader,
                writer,
                byte,
            } => {
                object.put("reader", reader);
                object.put("writer", writer);
                object.put("byte", byte);
            }
            CheckAnswer::Cycle { rows, edges } => {
                object.list("rows", rows);
                object.list("edges", edges);
            }
            CheckAnswer::Refused { number, row } => put_refusal(object, number, row),
            _ => (),
        }
    }

    fn rows(&self) -> Vec<u16> {
        match *self {
            CheckAnswer::Race { first, second, .. } => vec![first, second],
            CheckAnswer::Overwritten { reader, writer, .. } => vec![reader, writer],
            CheckAnswer::Cycle { rows, .. } => rows.to_vec(),
            CheckAnswer::Refused { number, row } => refused_row(number, row),
            _ => Vec::new(),
        }
    }
}

impl Answer for FillAnswer<'_> {
    fn verdict(&self) -> Verdict {
        match self {
            FillAnswer::Filled(_) => Verdict::Filled,
            FillAnswer::Race { .. } => Verdict::Race,
            FillAnswer::None => Verdict::NoFilling,
            FillAnswer::Refused { .. } => Verdict::Refused,
            _ => Verdict::Unknown,
        }
    }

    fn put(&self, object: &mut Object) {
        match *self {
            FillAnswer::Filled(sources) => object.list("sources", sources),
            FillAnswer::Race {
                first,
                second,
                byte,
            } => put_race(object, first, second, byte),
            FillAnswer::Refused { number, row } => put_refusal(object, number, row),
            _ => (),
        }
    }

    fn rows(&self) -> Vec<u16> {
        match *self {
            FillAnswer::Race { first, second, .. } => vec![first, second],
            FillAnswer::Refused { number, row } => refused_row(number, row),
            _ => Vec::new(),
        }
    }
}

impl Answer for DeriveAnswer<'_> {
    fn verdict(&self) -> Verdict {
        match self {
            DeriveAnswer::Derivation(Derivation::ProgramOrder) => Verdict::ProgramOrder,
            DeriveAnswer::Derivation(Derivation::Chain { .. }) => Verdict::Chain,
            DeriveAnswer::NotBefore => Verdict::NotBefore,
            DeriveAnswer::Refused { .. } => Verdict::Refused,
            _ => Verdict::Unknown,
        }
    }

    fn put(&self, object: &mut Object) {
        match *self {
            DeriveAnswer::Derivation(Derivation::Chain { classes, steps }) => {
                object.put("classes", classes);
                object.list("steps", steps);
            }
            DeriveAnswer::Refused { number, row } => put_refusal(object, number, row),
            _ => (),
        }
    }
}

impl Answer for AcceptsAnswer {
    fn verdict(&self) -> Verdict {
        match self {
            AcceptsAnswer::Accepted => Verdict::Accepted,
            AcceptsAnswer::NotAccepted => Verdict::NotAccepted,
            AcceptsAnswer::Refused { .. } => Verdict::Refused,
            _ => Verdict::Unknown,
        }
    }

    fn put(&self, object: &mut Object) {
        if let AcceptsAnswer::Refused { number, row } = *self {
            put_refusal(object, number, row);
        }
    }
}

impl Answer for ReportAnswer<'_> {
    fn verdict(&self) -> Verdict {
        match self {
            ReportAnswer::Report(report) => Verdict::Report(report.racing > 0),
            ReportAnswer::Check(answer) => answer.verdict(),
            _ => Verdict::Unknown,
        }
    }

    fn put(&self, object: &mut Object) {
        match self {
            ReportAnswer::Report(report) => {
                object.put("conflicting", report.conflicting);
                object.put("mutual", report.mutual);
                object.put("ordered", report.ordered);
                object.put("racing", report.racing);
                // In the digits that the plain line has.
                match report.share {
                    Share::Of(_) => object.put("share", report.share),
                    Share::NoPairs => object.put("share", "null"),
                }
            }
            ReportAnswer::Check(answer) => answer.put(object),
            _ => (),
        }
    }

    fn rows(&self) -> Vec<u16> {
        match self {
            ReportAnswer::Check(answer) => answer.rows(),
            _ => Vec::new(),
        }
    }
}

/// A refusal of the header names no row.
fn refused_row(number: u16, row: u16) -> Vec<u16> {
    is_of_a_row(number).then_some(row).into_iter().collect()
}

fn put_race(object: &mut Object, first: u16, second: u16, byte: u16) {
    object.put("first", first);
    object.put("second", second);
    object.put("byte", byte);
}

pub fn put_refusal(object: &mut Object, number: u16, row: u16) {
    object.put("number", number);
    object.put("row", row);
    if let Some(name) = (Refusal { number, row }).name() {
        object.text("name", name);
    }
}

#[cfg(test)]
mod tests {
    use super::*;
    use stramashly::Report;

    #[test]
    fn shares_are_numbers_or_null() {
        for (share, expected) in [
            (Share::Of(0.0), "0.0"),
            (Share::Of(1.0), "1.0"),
            (Share::Of(1.0 / 3.0), "0.3333333333333333"),
            (Share::NoPairs, "null"),
        ] {
            let mut object = Object::default();
            let report = Report {
                conflicting: 3,
                mutual: 0,
                ordered: 2,
                racing: 1,
                share,
            };
            ReportAnswer::Report(report).put(&mut object);
            let member = format!(",\"share\":{expected}}}");
            assert!(object.to_string().ends_with(&member), "{object}");
        }
    }
}
