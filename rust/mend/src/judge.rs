//! Who answers. On the command line that is the proved library; the words
//! themselves ask for no more than this.

use second::Chains;
use stramashly::{CheckAnswer, Checker, DeriveAnswer, FillAnswer, OwnedCheckAnswer, ReportAnswer};

/// Answers questions about tables, whatever their bytes.
pub trait Judge {
    fn check(&mut self, table: &[u8]) -> CheckAnswer<'_>;
    fn fill(&mut self, table: &[u8]) -> FillAnswer<'_>;
    fn derive(&mut self, table: &[u8], first: u16, second: u16) -> DeriveAnswer<'_>;

    /// How many pairs of rows race, if it can be said.
    fn racing(&mut self, _table: &[u8]) -> Option<usize> {
        None
    }

    /// Whether checks and fills are asked with chains.
    fn chains(&self) -> Chains {
        Chains::Off
    }
}

impl Judge for Checker {
    fn check(&mut self, table: &[u8]) -> CheckAnswer<'_> {
        Checker::check(self, table)
    }

    fn fill(&mut self, table: &[u8]) -> FillAnswer<'_> {
        Checker::fill(self, table)
    }

    fn derive(&mut self, table: &[u8], first: u16, second: u16) -> DeriveAnswer<'_> {
        Checker::derive(self, table, first, second)
    }

    fn racing(&mut self, table: &[u8]) -> Option<usize> {
        match self.report(table) {
            ReportAnswer::Report(report) => Some(report.racing.into()),
            _ => None,
        }
    }

    fn chains(&self) -> Chains {
        if self.has_chains() {
            Chains::On
        } else {
            Chains::Off
        }
    }
}

/// The second implementation's answer in the library's type, so that the two can
/// be compared.
pub fn of_second(answer: &second::CheckAnswer) -> OwnedCheckAnswer {
    match *answer {
        second::CheckAnswer::RaceFree => OwnedCheckAnswer::RaceFree,
        second::CheckAnswer::Race {
            first,
            second,
            byte,
        } => OwnedCheckAnswer::Race {
            first,
            second,
            byte,
        },
        second::CheckAnswer::Overwritten {
            reader,
            writer,
            byte,
        } => OwnedCheckAnswer::Overwritten {
            reader,
            writer,
            byte,
        },
        second::CheckAnswer::Cycle { rows, edges } => OwnedCheckAnswer::Cycle {
            rows: rows.as_slice().to_vec(),
            edges: edges.as_slice().to_vec(),
        },
        second::CheckAnswer::Refused { number, row } => OwnedCheckAnswer::Refused {
            number: number.into(),
            row,
        },
    }
}
