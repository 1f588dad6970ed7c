//! Reports: the conflicting pairs of a consistent table, counted by what
//! orders them, each count by its own definition.

use crate::answer::CheckAnswer;
use crate::chains::Chains;
use crate::state::State;
use std::fmt;

/// What a report answers.
#[derive(Clone, Copy, Debug, PartialEq, Eq)]
// Large cases are wanted: an answer needs no allocation.
#[allow(clippy::large_enum_variant)]
pub enum ReportAnswer {
    Counts(Counts),
    /// Check's answer to a refused or inconsistent table.
    Check(CheckAnswer),
}

/// How many pairs of rows conflict, and what comes of them.
#[derive(Clone, Copy, Debug, PartialEq, Eq)]
pub struct Counts {
    pub conflicting: u16,
    pub mutual: u16,
    pub ordered: u16,
    pub racing: u16,
}

impl Counts {
    /// One division; a table with no conflicting pair has no share.
    pub fn share(self) -> Option<f64> {
        let has_share = self.conflicting != 0;
        has_share.then(|| f64::from(self.racing) / f64::from(self.conflicting))
    }
}

impl State {
    /// Counts the conflicting pairs of a table with chains off. The lent
    /// buffers are given by their lengths only.
    pub fn report(
        &mut self,
        table: &[u8],
        work_words: usize,
        cycle_numbers: usize,
    ) -> ReportAnswer {
        self.report_with(Chains::Off, table, work_words, cycle_numbers)
    }

    /// Counts the conflicting pairs of a table.
    pub fn report_with(
        &mut self,
        chains: Chains,
        table: &[u8],
        work_words: usize,
        cycle_numbers: usize,
    ) -> ReportAnswer {
        match self.check_with(chains, table, work_words, cycle_numbers) {
            CheckAnswer::RaceFree | CheckAnswer::Race { .. } => ReportAnswer::Counts(self.counts()),
            answer => ReportAnswer::Check(answer),
        }
    }

    fn counts(&self) -> Counts {
        Counts {
            conflicting: self.count_pairs(|_, _| true),
            mutual: self.count_pairs(|x, y| self.mutually_ordered(x, y)),
            ordered: self.count_pairs(|x, y| self.ordered_everywhere(x, y)),
            racing: self.count_pairs(|x, y| self.race(x, y)),
        }
    }

    /// How many conflicting pairs there are of which the test holds.
    fn count_pairs(&self, test: impl Fn(usize, usize) -> bool) -> u16 {
        let pairs = (0..self.row_count).flat_map(|x| (0..x).map(move |y| (y, x)));
        let counted = pairs.filter(|(x, y)| self.conflict(*x, *y) && test(*x, *y));
        counted.count() as u16
    }

    /// Not mutually-ordered, but with location order at every shared byte.
    fn ordered_everywhere(&self, x: usize, y: usize) -> bool {
        !self.mutually_ordered(x, y)
            && self
                .shared_bytes(x, y)
                .all(|byte| self.location_order(x, y, byte) || self.location_order(y, x, byte))
    }

    /// Two rows race if they aren't mutually-ordered and some shared byte has
    /// no location order either way.
    fn race(&self, x: usize, y: usize) -> bool {
        !self.mutually_ordered(x, y)
            && self
                .shared_bytes(x, y)
                .any(|byte| !self.location_order(x, y, byte) && !self.location_order(y, x, byte))
    }

    fn shared_bytes(&self, x: usize, y: usize) -> impl Iterator<Item = u32> {
        let (x, y) = (self.rows[x], self.rows[y]);
        (x.first_byte()..x.end_byte()).filter(move |byte| y.has_byte(*byte))
    }
}

impl fmt::Display for ReportAnswer {
    fn fmt(&self, formatter: &mut fmt::Formatter) -> fmt::Result {
        let counts = match self {
            ReportAnswer::Counts(counts) => counts,
            ReportAnswer::Check(answer) => return write!(formatter, "{answer}"),
        };
        let Counts {
            conflicting,
            mutual,
            ordered,
            racing,
        } = counts;
        write!(
            formatter,
            "report {conflicting} {mutual} {ordered} {racing} "
        )?;
        match counts.share() {
            Some(share) => write!(formatter, "{share:?}"),
            None => write!(formatter, "no-share"),
        }
    }
}
