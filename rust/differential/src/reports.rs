//! Compares reports: the counts, every number of the lent buffers, and the
//! share.

use crate::{Comparison, Difference, Lengths};
use second::{Chains, ReportAnswer};
use stramashly::CYCLE_NUMBERS;

impl Comparison {
    /// A report with buffers that are long enough, chains off.
    pub fn report(&mut self, table: &[u8]) -> Result<ReportAnswer, Difference> {
        self.report_with(Chains::Off, table)
    }

    /// A report with buffers that are long enough.
    pub fn report_with(
        &mut self,
        chains: Chains,
        table: &[u8],
    ) -> Result<ReportAnswer, Difference> {
        let lengths = self.enough(CYCLE_NUMBERS);
        self.report_in(chains, table, lengths)
    }

    /// A report with buffers of any length.
    pub fn report_in(
        &mut self,
        chains: Chains,
        table: &[u8],
        lengths: Lengths,
    ) -> Result<ReportAnswer, Difference> {
        self.report_pieces_in(chains, [table, &[]], lengths)
    }
}

/// What stands in the place of the share before a report.
pub(crate) const UNWRITTEN: f64 = 7.25;

/// The share is the report's own; without a report, and of no pairs, nothing is
/// written.
pub(crate) fn compare_share(answer: &ReportAnswer, share: f64) -> Result<(), Difference> {
    let expected = match answer {
        ReportAnswer::Counts(counts) => counts.share().unwrap_or(UNWRITTEN),
        ReportAnswer::Check(_) => UNWRITTEN,
    };
    if share.to_bits() == expected.to_bits() {
        return Ok(());
    }
    Err(Difference(format!("share {share} of {answer:?}")))
}
