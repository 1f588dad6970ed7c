//! Derivations of happens-before, and a reader that says whether one holds.
//! Nothing here looks for a derivation.

use crate::admission::{Purpose, Refusal};
use crate::chains::Chains;
use crate::state::State;
use std::fmt;
use std::ops::RangeInclusive;

/// How many steps a chain has.
const STEPS: RangeInclusive<usize> = 1..=383;
/// The sets of classes, none of them empty.
const CLASS_SETS: RangeInclusive<u8> = 1..=15;
/// A step is so many times its case, plus the moment that it reaches.
const STEP_CASE: u16 = 512;

/// Why a moment happens before another: one word, or a chain for a class set.
#[derive(Clone, Copy, Debug, PartialEq, Eq)]
pub enum Derivation<'a> {
    ProgramOrder,
    Chain { classes: u8, steps: &'a [u16] },
}

/// What the reader answers.
#[derive(Clone, Copy, Debug, PartialEq, Eq)]
pub enum AcceptsAnswer {
    Refused { number: u8, row: u16 },
    Accepted,
    NotAccepted,
}

impl State {
    /// Reads a derivation from one moment of a table to another: a fill's
    /// refusals first, then 12.
    pub fn accepts(
        &mut self,
        table: &[u8],
        first: u16,
        second: u16,
        derivation: Derivation,
    ) -> AcceptsAnswer {
        match self.take_in(table) {
            Err((number, row)) => AcceptsAnswer::Refused { number, row },
            Ok(()) => self.accepts_of_last(first, second, derivation),
        }
    }

    /// Takes a table in for questions about its moments, or gives the number
    /// and the row of a fill's refusal. Whether chains are on is nothing to
    /// moments; they are off.
    pub fn take_in(&mut self, table: &[u8]) -> Result<(), (u8, u16)> {
        self.take_in_with(Chains::Off, table)
    }

    /// Takes a table in for questions about its location order as well.
    pub fn take_in_with(&mut self, chains: Chains, table: &[u8]) -> Result<(), (u8, u16)> {
        self.chains = chains;
        self.row_count = 0;
        let refused = |Refusal { number, row }| (number, row);
        self.admit(table, Purpose::Fill).map_err(refused)?;
        self.relate();
        Ok(())
    }

    /// Reads a derivation of the last admitted table.
    pub fn accepts_of_last(
        &self,
        first: u16,
        second: u16,
        derivation: Derivation,
    ) -> AcceptsAnswer {
        let (first, second) = (usize::from(first), usize::from(second));
        if self.refusal_12(first, second) {
            AcceptsAnswer::Refused { number: 12, row: 0 }
        } else if self.derivation_holds(first, second, derivation) {
            AcceptsAnswer::Accepted
        } else {
            AcceptsAnswer::NotAccepted
        }
    }

    /// Refusal 12: a moment is absent, or given twice.
    pub fn refusal_12(&self, first: usize, second: usize) -> bool {
        !self.moment_exists(first) || !self.moment_exists(second) || first == second
    }

    /// The word where program order holds, or a chain of 1 to 383 steps that
    /// hold for its one class set and lead from the first moment to the second.
    fn derivation_holds(&self, first: usize, second: usize, derivation: Derivation) -> bool {
        match derivation {
            Derivation::ProgramOrder => self.program_order(first, second),
            Derivation::Chain { classes, steps } => {
                CLASS_SETS.contains(&classes)
                    && STEPS.contains(&steps.len())
                    && self.chain_end(classes, first, steps) == Some(second)
            }
        }
    }

    /// Where the steps lead from a moment, unless one of them doesn't hold.
    fn chain_end(&self, classes: u8, first: usize, steps: &[u16]) -> Option<usize> {
        steps.iter().try_fold(first, |moment, step| {
            let (case, reached) = (step / STEP_CASE, usize::from(step % STEP_CASE));
            let case = u8::try_from(case).expect("a step has at most 127 cases");
            let holds = self.direct_step(classes, case, moment, reached);
            holds.then_some(reached)
        })
    }
}

impl fmt::Display for AcceptsAnswer {
    fn fmt(&self, formatter: &mut fmt::Formatter) -> fmt::Result {
        match self {
            AcceptsAnswer::Refused { number, row } => write!(formatter, "refused {number} {row}"),
            AcceptsAnswer::Accepted => write!(formatter, "accepted"),
            AcceptsAnswer::NotAccepted => write!(formatter, "not-accepted"),
        }
    }
}
