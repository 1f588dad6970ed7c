//! Reports: how many pairs conflict, and what comes of them.

use crate::answer::{owned_and_borrowed, CheckAnswerOf};
use std::fmt;

/// What a report answers.
#[derive(Clone, Copy, Debug, PartialEq)]
#[non_exhaustive]
pub enum ReportAnswerOf<L> {
    /// The counts.
    Report(Report),
    /// A refused or inconsistent table has check's answer and no report.
    Check(CheckAnswerOf<L>),
}

/// A report's answer whose lists lie in the checker's own buffer.
pub type ReportAnswer<'a> = ReportAnswerOf<&'a [u16]>;
/// A report's answer with lists of its own.
pub type OwnedReportAnswer = ReportAnswerOf<Vec<u16>>;

impl<L> ReportAnswerOf<L> {
    pub(crate) fn with<'a, M>(&'a self, list: impl Fn(&'a L) -> M) -> ReportAnswerOf<M> {
        match self {
            ReportAnswerOf::Report(report) => ReportAnswerOf::Report(*report),
            ReportAnswerOf::Check(answer) => ReportAnswerOf::Check(answer.with(list)),
        }
    }
}

owned_and_borrowed!(ReportAnswerOf);

/// The conflicting pairs of a consistent table, counted.
#[derive(Clone, Copy, Debug, PartialEq)]
pub struct Report {
    /// All of them: the sum of the three others.
    pub conflicting: u16,
    /// The mutually-ordered.
    pub mutual: u16,
    /// Those that aren't, but are ordered at every shared byte.
    pub ordered: u16,
    /// Those that race.
    pub racing: u16,
    /// The racing ones' part.
    pub share: Share,
}

/// The racing pairs' part of the conflicting ones.
#[derive(Clone, Copy, Debug, PartialEq)]
pub enum Share {
    /// The one division, rounded once, as the library handed it over.
    Of(f64),
    /// No pair conflicts, which isn't the same as none that races.
    NoPairs,
}

impl<L: AsRef<[u16]>> fmt::Display for ReportAnswerOf<L> {
    fn fmt(&self, formatter: &mut fmt::Formatter) -> fmt::Result {
        match self {
            ReportAnswerOf::Report(report) => write!(formatter, "{report}"),
            ReportAnswerOf::Check(answer) => write!(formatter, "{answer}"),
        }
    }
}

impl fmt::Display for Report {
    fn fmt(&self, formatter: &mut fmt::Formatter) -> fmt::Result {
        let Report {
            conflicting,
            mutual,
            ordered,
            racing,
            share,
        } = self;
        write!(
            formatter,
            "report {conflicting} {mutual} {ordered} {racing} {share}"
        )
    }
}

impl fmt::Display for Share {
    /// The fewest digits that read back as the same number.
    fn fmt(&self, formatter: &mut fmt::Formatter) -> fmt::Result {
        match self {
            Share::Of(share) => write!(formatter, "{share:?}"),
            Share::NoPairs => write!(formatter, "no-share"),
        }
    }
}
