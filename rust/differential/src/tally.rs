//! Counts of answers, to see that each was reached often enough.

use crate::{Derived, Probed};
use second::{AcceptsAnswer, CheckAnswer, FillAnswer, ReportAnswer, RowsAnswer, WriteAnswer};
use std::collections::{BTreeMap, BTreeSet};
use std::fmt;
use stramashly::PROGRAM_ORDER;

/// The verdicts of a check of a good table.
pub const VERDICTS: [&str; 4] = [
    "check race-free",
    "check race",
    "check overwritten",
    "check cycle",
];
/// The answers to a fill of a good table.
pub const FILLED: [&str; 3] = ["fill filled", "fill none", "fill race"];

/// Answers counted by their word, and the rows that each refusal named.
#[derive(Default)]
pub struct Tally {
    words: BTreeMap<String, usize>,
    rows: BTreeMap<u8, BTreeSet<u16>>,
    total: usize,
}

impl Tally {
    pub fn check(&mut self, answer: &CheckAnswer) {
        match *answer {
            CheckAnswer::RaceFree => self.count("check race-free"),
            CheckAnswer::Race { .. } => self.count("check race"),
            CheckAnswer::Overwritten { .. } => self.count("check overwritten"),
            CheckAnswer::Cycle { .. } => self.count("check cycle"),
            CheckAnswer::Refused { number, row } => self.refusal("check", number, row),
        }
    }

    pub fn fill(&mut self, answer: &FillAnswer) {
        match *answer {
            FillAnswer::Filled(_) => self.count("fill filled"),
            FillAnswer::None => self.count("fill none"),
            FillAnswer::Race { .. } => self.count("fill race"),
            FillAnswer::TooMany => self.count("fill not compared"),
            FillAnswer::Refused { number, row } => self.refusal("fill", number, row),
        }
    }

    pub fn report(&mut self, answer: &ReportAnswer) {
        match answer {
            ReportAnswer::Counts(counts) if counts.conflicting == 0 => {
                self.count("report without a share");
            }
            ReportAnswer::Counts(counts) if counts.racing == 0 => self.count("report 0.0"),
            ReportAnswer::Counts(counts) if counts.racing == counts.conflicting => {
                self.count("report 1.0");
            }
            ReportAnswer::Counts(_) => self.count("report between"),
            ReportAnswer::Check(CheckAnswer::Refused { number, row }) => {
                self.refusal("report", *number, *row);
            }
            ReportAnswer::Check(_) => self.count("report inconsistent"),
        }
    }

    pub fn write(&mut self, answer: &WriteAnswer) {
        match *answer {
            WriteAnswer::Written(_) => self.count("write written"),
            WriteAnswer::Refused { number, row } => self.refusal("write", number, row),
        }
    }

    pub fn rows(&mut self, answer: &RowsAnswer) {
        match *answer {
            RowsAnswer::Rows(_) => self.count("step through rows"),
            RowsAnswer::Refused { number, row } => self.refusal("step through", number, row),
        }
    }

    pub fn probe(&mut self, probed: &Probed) {
        match probed.derived {
            Derived::Found(ref claim) if claim.classes == PROGRAM_ORDER => {
                self.count("derive program order");
            }
            Derived::Found(_) => self.count("derive chain"),
            Derived::NotBefore => self.count("derive not before"),
            Derived::Refused { number, row } => self.refusal("derive", number, row),
        }
        for (_, answer) in &probed.read {
            match *answer {
                AcceptsAnswer::Accepted => self.count("accepts accepted"),
                AcceptsAnswer::NotAccepted => self.count("accepts not accepted"),
                AcceptsAnswer::Refused { number, row } => self.refusal("accepts", number, row),
            }
        }
    }

    fn count(&mut self, words: &str) {
        self.total += 1;
        match self.words.get_mut(words) {
            Some(count) => *count += 1,
            None => {
                self.words.insert(words.to_string(), 1);
            }
        }
    }

    fn refusal(&mut self, command: &str, number: u8, row: u16) {
        self.count(&format!("{command} refused {number}"));
        self.rows.entry(number).or_default().insert(row);
    }

    pub fn total(&self) -> usize {
        self.total
    }

    /// How many answers were these words.
    pub fn of(&self, words: &str) -> usize {
        self.words.get(words).copied().unwrap_or(0)
    }

    /// Each of these words is at least one in so many answers.
    pub fn assert_one_in<'a>(&self, parts: usize, words: impl IntoIterator<Item = &'a &'a str>) {
        for words in words {
            let count = parts * self.of(words);
            assert!(count >= self.total, "{words}:\n{self}");
        }
    }

    /// How many different rows a refusal named.
    pub fn rows_refused(&self, number: u8) -> usize {
        self.rows.get(&number).map_or(0, BTreeSet::len)
    }
}

impl fmt::Display for Tally {
    fn fmt(&self, formatter: &mut fmt::Formatter) -> fmt::Result {
        for (words, count) in &self.words {
            writeln!(formatter, "{count:>10} {words}")?;
        }
        Ok(())
    }
}
