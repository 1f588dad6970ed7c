//! A checker with buffers of its own.

use crate::answer::{foreign, CheckAnswer, Code, FillAnswer, Packed};
use crate::derivation::{AcceptsAnswer, Derivation, DeriveAnswer};
use crate::engine::{
    accepts_in, check_by_flags, check_in, derive_in, fill_by_flags, fill_in, report_in, Pieces,
};
use crate::report::{Report, ReportAnswer, Share};
use crate::{CHAIN_NUMBERS, CYCLE_EDGES, CYCLE_NUMBERS, PROGRAM_ORDER, SOURCE_NUMBERS, WORK_WORDS};

/// Answers questions about tables, one after the other, without allocating.
///
/// Each function panics only where the linked archive isn't the one that the
/// header describes: its answer has a code that the function doesn't give.
pub struct Checker {
    chains: bool,
    work: Box<[u64; WORK_WORDS]>,
    cycle: [u16; CYCLE_NUMBERS],
    sources: [u16; SOURCE_NUMBERS],
    chain: [u16; CHAIN_NUMBERS],
}

impl Default for Checker {
    fn default() -> Checker {
        Checker::new()
    }
}

impl Checker {
    /// A checker for devices without chains.
    pub fn new() -> Checker {
        Checker {
            chains: false,
            work: Box::new([0; WORK_WORDS]),
            cycle: [0; CYCLE_NUMBERS],
            sources: [0; SOURCE_NUMBERS],
            chain: [0; CHAIN_NUMBERS],
        }
    }

    /// The same checker for devices that report the feature
    /// vulkanMemoryModelAvailabilityVisibilityChains, or for those that don't.
    /// Derivations don't depend on it.
    pub fn with_chains(self, chains: bool) -> Checker {
        Checker { chains, ..self }
    }

    /// Whether it answers for devices with chains.
    pub fn has_chains(&self) -> bool {
        self.chains
    }

    /// Checks a table in one piece or two, whatever their bytes.
    pub fn check<'t>(&mut self, table: impl Into<Pieces<'t>>) -> CheckAnswer<'_> {
        let table = table.into();
        let packed = check_in(self.chains, table, &mut self.work[..], &mut self.cycle);
        self.checked(packed)
    }

    /// Checks a table by the flags engine, which has one flag for each two
    /// moments: the same answer, many times as slowly.
    pub fn check_by_flags(&mut self, table: &[u8]) -> CheckAnswer<'_> {
        let packed = check_by_flags(self.chains, table, &mut self.work[..], &mut self.cycle);
        self.checked(packed)
    }

    /// Fills the blanks of a table in one piece or two, whatever their bytes.
    pub fn fill<'t>(&mut self, table: impl Into<Pieces<'t>>) -> FillAnswer<'_> {
        let table = table.into();
        let packed = fill_in(self.chains, table, &mut self.work[..], &mut self.sources);
        self.filled(packed)
    }

    /// Fills the blanks of a table by the flags engine.
    pub fn fill_by_flags(&mut self, table: &[u8]) -> FillAnswer<'_> {
        let packed = fill_by_flags(self.chains, table, &mut self.work[..], &mut self.sources);
        self.filled(packed)
    }

    /// Counts the conflicting pairs of a table in one piece or two.
    pub fn report<'t>(&mut self, table: impl Into<Pieces<'t>>) -> ReportAnswer<'_> {
        let (work, cycle) = (&mut self.work[..], &mut self.cycle);
        let mut share = 0.0;
        let packed = report_in(self.chains, table.into(), work, cycle, &mut share);
        self.counted(packed, share)
    }

    /// Why one moment of a table happens before another, whatever the bytes
    /// and the numbers.
    pub fn derive<'t>(
        &mut self,
        table: impl Into<Pieces<'t>>,
        first: u16,
        second: u16,
    ) -> DeriveAnswer<'_> {
        let moments = [first, second];
        let packed = derive_in(table.into(), moments, &mut self.work[..], &mut self.chain);
        self.derived(packed)
    }

    /// Whether a derivation, whoever wrote it, leads from one moment of a
    /// table to another. It needs no buffers, so that a derivation that lies in
    /// a checker's can be read.
    pub fn accepts<'t>(
        table: impl Into<Pieces<'t>>,
        first: u16,
        second: u16,
        derivation: Derivation,
    ) -> AcceptsAnswer {
        let (classes, steps) = (derivation.classes(), derivation.steps());
        let packed = accepts_in(table.into(), [first, second], classes, steps);
        match packed.code() {
            Some(Code::Accepted) => AcceptsAnswer::Accepted,
            Some(Code::NotAccepted) => AcceptsAnswer::NotAccepted,
            Some(Code::Refused) => AcceptsAnswer::Refused {
                number: packed.a(),
                row: packed.b(),
            },
            _ => foreign(packed),
        }
    }

    /// A report's answer, taken apart, with the share that came beside it.
    fn counted(&self, packed: Packed, share: f64) -> ReportAnswer<'_> {
        match packed.code() {
            Some(Code::Report) => ReportAnswer::Report(reported(packed, Share::Of(share))),
            Some(Code::NoPairs) => ReportAnswer::Report(reported(packed, Share::NoPairs)),
            Some(Code::Overwritten | Code::Cycle | Code::Refused) => {
                ReportAnswer::Check(self.checked(packed))
            }
            _ => foreign(packed),
        }
    }

    /// A check's answer, taken apart; a cycle lies in the buffer.
    fn checked(&self, packed: Packed) -> CheckAnswer<'_> {
        let (a, b, c) = (packed.a(), packed.b(), packed.c());
        match packed.code() {
            Some(Code::RaceFree) => CheckAnswer::RaceFree,
            Some(Code::Race) => CheckAnswer::Race {
                first: a,
                second: b,
                byte: c,
            },
            Some(Code::Overwritten) => CheckAnswer::Overwritten {
                reader: a,
                writer: b,
                byte: c,
            },
            Some(Code::Cycle) => CheckAnswer::Cycle {
                rows: &self.cycle[..usize::from(a)],
                edges: &self.cycle[CYCLE_EDGES..][..usize::from(a)],
            },
            Some(Code::Refused) => CheckAnswer::Refused { number: a, row: b },
            _ => foreign(packed),
        }
    }

    /// A fill's answer, taken apart; the sources lie in the buffer.
    fn filled(&self, packed: Packed) -> FillAnswer<'_> {
        let (a, b, c) = (packed.a(), packed.b(), packed.c());
        match packed.code() {
            Some(Code::Filled) => FillAnswer::Filled(&self.sources[..usize::from(a)]),
            Some(Code::None) => FillAnswer::None,
            Some(Code::Race) => FillAnswer::Race {
                first: a,
                second: b,
                byte: c,
            },
            Some(Code::Refused) => FillAnswer::Refused { number: a, row: b },
            _ => foreign(packed),
        }
    }

    /// What was derived, taken apart; a chain lies in the buffer.
    fn derived(&self, packed: Packed) -> DeriveAnswer<'_> {
        let (a, b) = (packed.a(), packed.b());
        match packed.code() {
            Some(Code::Derivation) if a == u16::from(PROGRAM_ORDER) => {
                DeriveAnswer::Derivation(Derivation::ProgramOrder)
            }
            Some(Code::Derivation) => DeriveAnswer::Derivation(Derivation::Chain {
                classes: a.try_into().unwrap_or_else(|_| foreign(packed)),
                steps: &self.chain[..usize::from(b)],
            }),
            Some(Code::NotBefore) => DeriveAnswer::NotBefore,
            Some(Code::Refused) => DeriveAnswer::Refused { number: a, row: b },
            _ => foreign(packed),
        }
    }
}

/// A report's counts; the first is the sum of the others.
fn reported(packed: Packed, share: Share) -> Report {
    let (mutual, ordered, racing) = (packed.a(), packed.b(), packed.c());
    Report {
        conflicting: mutual + ordered + racing,
        mutual,
        ordered,
        racing,
        share,
    }
}
