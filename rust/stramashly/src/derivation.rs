//! Derivations of happens-before, and what is answered about them.

use crate::answer::{owned_and_borrowed, write_numbers};
use crate::PROGRAM_ORDER;
use std::fmt;

/// Why a moment happens before another. A moment is 3 × its row + 0, 1 or 2
/// for before, at or after; a step is 512 × its case (1 to 3 in M6's order, 4
/// for a dependency) + the moment that it reaches.
#[derive(Clone, Copy, Debug, PartialEq, Eq)]
pub enum DerivationOf<L> {
    /// The word program order.
    ProgramOrder,
    /// Steps for one class set, 1 to 15. As in C, the set 16 is the word.
    Chain {
        /// The class set.
        classes: u8,
        /// The steps, 1 to 383 of them.
        steps: L,
    },
}

/// A derivation whose steps lie elsewhere.
pub type Derivation<'a> = DerivationOf<&'a [u16]>;
/// A derivation with steps of its own.
pub type OwnedDerivation = DerivationOf<Vec<u16>>;

impl<L> DerivationOf<L> {
    pub(crate) fn with<'a, M>(&'a self, list: impl Fn(&'a L) -> M) -> DerivationOf<M> {
        match *self {
            DerivationOf::ProgramOrder => DerivationOf::ProgramOrder,
            DerivationOf::Chain { classes, ref steps } => DerivationOf::Chain {
                classes,
                steps: list(steps),
            },
        }
    }
}

impl<'a> Derivation<'a> {
    /// The class set that goes over the C boundary, 16 for the word.
    pub fn classes(self) -> u8 {
        match self {
            Derivation::ProgramOrder => PROGRAM_ORDER,
            Derivation::Chain { classes, .. } => classes,
        }
    }

    /// The steps, none beside the word.
    pub fn steps(self) -> &'a [u16] {
        match self {
            Derivation::ProgramOrder => &[],
            Derivation::Chain { steps, .. } => steps,
        }
    }
}

/// What the finder answers.
#[derive(Clone, Copy, Debug, PartialEq, Eq)]
#[non_exhaustive]
pub enum DeriveAnswerOf<L> {
    /// The first moment happens before the second, and this is why.
    Derivation(DerivationOf<L>),
    /// The first moment doesn't happen before the second.
    NotBefore,
    /// The table breaks a rule of form, or the numbers aren't those of two
    /// moments of it (12).
    Refused {
        /// Which rule of form is broken.
        number: u16,
        /// The row that breaks it, 0 where it is no row's.
        row: u16,
    },
}

/// The finder's answer; a chain lies in the checker's own buffer.
pub type DeriveAnswer<'a> = DeriveAnswerOf<&'a [u16]>;
/// The finder's answer with a derivation of its own.
pub type OwnedDeriveAnswer = DeriveAnswerOf<Vec<u16>>;

impl<L> DeriveAnswerOf<L> {
    pub(crate) fn with<'a, M>(&'a self, list: impl Fn(&'a L) -> M) -> DeriveAnswerOf<M> {
        use DeriveAnswerOf::{Derivation, NotBefore, Refused};
        match *self {
            Derivation(ref derivation) => Derivation(derivation.with(list)),
            NotBefore => NotBefore,
            Refused { number, row } => Refused { number, row },
        }
    }
}

owned_and_borrowed!(DerivationOf DeriveAnswerOf);

/// What the reader of derivations answers.
#[derive(Clone, Copy, Debug, PartialEq, Eq)]
#[non_exhaustive]
pub enum AcceptsAnswer {
    /// The derivation leads from the first moment to the second.
    Accepted,
    /// It doesn't.
    NotAccepted,
    /// The table breaks a rule of form, or the numbers aren't those of two
    /// moments of it (12).
    Refused {
        /// Which rule of form is broken.
        number: u16,
        /// The row that breaks it, 0 where it is no row's.
        row: u16,
    },
}

impl<L: AsRef<[u16]>> fmt::Display for DerivationOf<L> {
    fn fmt(&self, formatter: &mut fmt::Formatter) -> fmt::Result {
        match self {
            DerivationOf::ProgramOrder => write!(formatter, "program-order"),
            DerivationOf::Chain { classes, steps } => {
                write!(formatter, "chain {classes}")?;
                write_numbers(formatter, steps)
            }
        }
    }
}

impl<L: AsRef<[u16]>> fmt::Display for DeriveAnswerOf<L> {
    fn fmt(&self, formatter: &mut fmt::Formatter) -> fmt::Result {
        match self {
            DeriveAnswerOf::Derivation(derivation) => write!(formatter, "{derivation}"),
            DeriveAnswerOf::NotBefore => write!(formatter, "not-before"),
            DeriveAnswerOf::Refused { number, row } => write!(formatter, "refused {number} {row}"),
        }
    }
}

impl fmt::Display for AcceptsAnswer {
    fn fmt(&self, formatter: &mut fmt::Formatter) -> fmt::Result {
        match self {
            AcceptsAnswer::Accepted => write!(formatter, "accepted"),
            AcceptsAnswer::NotAccepted => write!(formatter, "not-accepted"),
            AcceptsAnswer::Refused { number, row } => write!(formatter, "refused {number} {row}"),
        }
    }
}
