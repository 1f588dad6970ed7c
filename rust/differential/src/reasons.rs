//! Compares what is said about the moments of one table: derivations found
//! by the library are judged by the second implementation, and derivations
//! that anybody wrote are read by both.

use crate::claim::Claim;
use crate::{Comparison, Difference, Lengths};
use second::AcceptsAnswer;
use stramashly::{accepts_in, derive_in, Code, Packed, CHAIN_NUMBERS, PROGRAM_ORDER, WORK_WORDS};
use tables::hex;

/// One table whose moments are asked about.
pub struct Moments<'a> {
    comparison: &'a mut Comparison,
    table: &'a [u8],
    admission: Result<(), (u8, u16)>,
}

/// What was found of two moments, and how derivations between them were read,
/// good and bad ones.
pub struct Probed {
    pub derived: Derived,
    pub read: Vec<(Claim, AcceptsAnswer)>,
}

/// What was found of two moments; both agree.
#[derive(Clone, Debug, PartialEq, Eq)]
pub enum Derived {
    Refused { number: u8, row: u16 },
    NotBefore,
    Found(Claim),
}

impl Comparison {
    pub fn moments_of<'a>(&'a mut self, table: &'a [u8]) -> Moments<'a> {
        Moments {
            admission: self.state.take_in(table),
            comparison: self,
            table,
        }
    }
}

impl Moments<'_> {
    /// Three for each row, whether they exist or not; none after a refusal.
    pub fn count(&self) -> usize {
        3 * self.comparison.state.row_count()
    }

    /// The pairs that only a chain can order.
    pub fn chained(&self) -> Vec<(u16, u16)> {
        let state = &self.comparison.state;
        let pairs = (0..self.count())
            .flat_map(|first| (0..self.count()).map(move |second| (first, second)));
        pairs
            .filter(|(first, second)| {
                state.happens_before(*first, *second) && !state.in_program_order(*first, *second)
            })
            .map(|(first, second)| (first as u16, second as u16))
            .collect()
    }

    /// Derives, then reads what was found with changes, and others.
    pub fn probe(&mut self, first: u16, second: u16) -> Result<Probed, Difference> {
        let derived = self.derive(first, second)?;
        let count = self.count();
        let random = &mut self.comparison.random;
        let mut claims = vec![Claim::random(random, count), Claim::word()];
        if let Derived::Found(found) = &derived {
            claims.extend((0..4).map(|_| found.mutated(random, count)));
            claims.push(claims[2].mutated(random, count));
        }
        let read = claims.into_iter().map(|claim| {
            let answer = self.read(first, second, &claim)?;
            Ok((claim, answer))
        });
        Ok(Probed {
            read: read.collect::<Result<_, Difference>>()?,
            derived,
        })
    }

    /// A derivation with buffers that are long enough.
    pub fn derive(&mut self, first: u16, second: u16) -> Result<Derived, Difference> {
        let lengths = self.comparison.enough(CHAIN_NUMBERS);
        self.derive_in(first, second, lengths)
    }

    /// A derivation with buffers of any length.
    pub fn derive_in(
        &mut self,
        first: u16,
        second: u16,
        lengths: Lengths,
    ) -> Result<Derived, Difference> {
        let at = self.comparison.prepare(self.table, lengths);
        let Comparison { around, ours, .. } = self.comparison;
        let lent = &around[at..at + self.table.len()];
        let packed = derive_in(
            lent.into(),
            [first, second],
            &mut ours.work,
            &mut ours.numbers,
        );
        let (expected, derived) = self.expected(first, second, lengths, packed);
        let table = self.table;
        let words = || format!("derive {} {first} {second}", hex(table));
        self.comparison.compare(words, lengths, packed, expected)?;
        if let Derived::Found(claim) = &derived {
            let answer = self.read(first, second, claim)?;
            if answer != AcceptsAnswer::Accepted {
                return Err(Difference(format!("{claim:?}: {answer}\n{}", words())));
            }
        }
        Ok(derived)
    }

    /// The packed answer; the buffers become what they must hold after it.
    /// Which derivation is found is the library's choice.
    fn expected(
        &mut self,
        first: u16,
        second: u16,
        lengths: Lengths,
        packed: Packed,
    ) -> (Packed, Derived) {
        if let Some((number, row)) = self.refusal(first, second, lengths) {
            let expected = Packed::new(Code::Refused, number.into(), row, 0);
            return (expected, Derived::Refused { number, row });
        }
        let Comparison {
            state,
            ours,
            expected,
            ..
        } = &mut *self.comparison;
        expected.work[..WORK_WORDS].fill(0);
        if !state.happens_before(first.into(), second.into()) {
            return (Packed::new(Code::NotBefore, 0, 0, 0), Derived::NotBefore);
        }
        let (classes, count) = form(packed);
        let steps = &ours.numbers[..count.into()];
        expected.numbers[..count.into()].copy_from_slice(steps);
        let found = Derived::Found(Claim::chain(classes, steps));
        let packed = Packed::new(Code::Derivation, classes.into(), count, 0);
        (packed, found)
    }

    /// Refusal 11, a fill's, then 12.
    fn refusal(&self, first: u16, second: u16, lengths: Lengths) -> Option<(u8, u16)> {
        let is_short = lengths.work < WORK_WORDS || lengths.numbers < CHAIN_NUMBERS;
        let state = &self.comparison.state;
        match self.admission {
            _ if is_short => Some((11, 0)),
            Err(refusal) => Some(refusal),
            Ok(()) => state
                .refusal_12(first.into(), second.into())
                .then_some((12, 0)),
        }
    }

    /// Reads a derivation by both.
    pub fn read(
        &mut self,
        first: u16,
        second: u16,
        claim: &Claim,
    ) -> Result<AcceptsAnswer, Difference> {
        let answer = if let Err((number, row)) = self.admission {
            AcceptsAnswer::Refused { number, row }
        } else {
            let derivation = claim.derivation();
            self.comparison
                .state
                .accepts_of_last(first, second, derivation)
        };
        let expected = match answer {
            AcceptsAnswer::Refused { number, row } => {
                Packed::new(Code::Refused, number.into(), row, 0)
            }
            AcceptsAnswer::Accepted => Packed::new(Code::Accepted, 0, 0, 0),
            AcceptsAnswer::NotAccepted => Packed::new(Code::NotAccepted, 0, 0, 0),
        };
        let packed = self.read_by_the_library(first, second, claim);
        if packed == expected {
            return Ok(answer);
        }
        let digits = hex(self.table);
        Err(Difference(format!(
            "{packed:?} instead of {expected:?}\naccepts {digits} {first} {second} {claim:?}"
        )))
    }

    /// Table and steps lie among random bytes and numbers.
    fn read_by_the_library(&mut self, first: u16, second: u16, claim: &Claim) -> Packed {
        let count = claim.steps.len();
        let lengths = Lengths {
            work: 0,
            numbers: count + 8,
        };
        let at = self.comparison.prepare(self.table, lengths);
        let Comparison { around, ours, .. } = &mut *self.comparison;
        let steps = &mut ours.numbers[4..][..count];
        steps.copy_from_slice(&claim.steps);
        let lent = &around[at..at + self.table.len()];
        accepts_in(lent.into(), [first, second], claim.classes, steps)
    }
}

/// A derivation's class set and count of steps, brought to what they may be:
/// an answer with others differs from it.
fn form(packed: Packed) -> (u8, u16) {
    if packed.a() == PROGRAM_ORDER.into() {
        return (PROGRAM_ORDER, 0);
    }
    let most = CHAIN_NUMBERS as u16;
    (packed.a().clamp(1, 15) as u8, packed.b().clamp(1, most))
}
