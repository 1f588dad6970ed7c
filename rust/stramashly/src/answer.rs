//! Answers: packed as the checker gives them, and taken apart.

use std::fmt;

/// What an answer says; its number is the packed answer's code.
#[derive(Clone, Copy, Debug, PartialEq, Eq)]
#[non_exhaustive]
pub enum Code {
    /// Every conflicting pair of rows is ordered.
    RaceFree = 0,
    /// Two rows conflict and have no order at a byte.
    Race = 1,
    /// A reader's source was overwritten before it read.
    Overwritten = 2,
    /// Edges lead from a row back to itself.
    Cycle = 3,
    /// The table breaks a rule of form.
    Refused = 4,
    /// No filling is consistent.
    None = 5,
    /// The blanks have their sources.
    Filled = 6,
    /// The conflicting pairs, of which there are some, are counted.
    Report = 7,
    /// A moment happens before another, and this is why.
    Derivation = 8,
    /// A moment doesn't happen before another.
    NotBefore = 9,
    /// A derivation leads from a moment to another.
    Accepted = 10,
    /// It doesn't.
    NotAccepted = 11,
    /// The values make a table.
    Written = 12,
    /// The table can be stepped through.
    Opened = 13,
    /// A row of a table that a fill admits.
    Row = 14,
    /// Such a table has no further row.
    End = 15,
    /// A row's place in a table of two pieces.
    RowPlace = 16,
    /// Neither piece holds the row.
    NoRow = 17,
    /// No pair of rows conflicts.
    NoPairs = 18,
    /// The table's values.
    Read = 19,
}

/// A packed answer: code × 2^48 + a × 2^32 + b × 2^16 + c.
#[derive(Clone, Copy, PartialEq, Eq)]
pub struct Packed(pub u64);

impl Packed {
    /// Packs an answer.
    pub fn new(code: Code, a: u16, b: u16, c: u16) -> Packed {
        let number = (code as u64) << 48;
        Packed(number | u64::from(a) << 32 | u64::from(b) << 16 | u64::from(c))
    }

    /// The code, unless it is a number that no answer has.
    pub fn code(self) -> Option<Code> {
        let code = match self.0 >> 48 {
            0 => Code::RaceFree,
            1 => Code::Race,
            2 => Code::Overwritten,
            3 => Code::Cycle,
            4 => Code::Refused,
            5 => Code::None,
            6 => Code::Filled,
            7 => Code::Report,
            8 => Code::Derivation,
            9 => Code::NotBefore,
            10 => Code::Accepted,
            11 => Code::NotAccepted,
            12 => Code::Written,
            13 => Code::Opened,
            14 => Code::Row,
            15 => Code::End,
            16 => Code::RowPlace,
            17 => Code::NoRow,
            18 => Code::NoPairs,
            19 => Code::Read,
            _ => return None,
        };
        Some(code)
    }

    /// Part a.
    pub fn a(self) -> u16 {
        (self.0 >> 32) as u16
    }

    /// Part b.
    pub fn b(self) -> u16 {
        (self.0 >> 16) as u16
    }

    /// Part c.
    pub fn c(self) -> u16 {
        self.0 as u16
    }
}

impl fmt::Debug for Packed {
    fn fmt(&self, formatter: &mut fmt::Formatter) -> fmt::Result {
        let code = self.0 >> 48;
        write!(
            formatter,
            "Packed({code}, {}, {}, {})",
            self.a(),
            self.b(),
            self.c()
        )
    }
}

pub(crate) fn foreign(packed: Packed) -> ! {
    panic!("libstramashly.a gave an answer that stramashly.h doesn't have: {packed:?}")
}

/// What a check answers, its lists borrowed or owned.
#[derive(Clone, Copy, Debug, PartialEq, Eq)]
#[non_exhaustive]
pub enum CheckAnswerOf<L> {
    /// Every conflicting pair of rows is ordered.
    RaceFree,
    /// Two rows conflict and have no order at a byte.
    Race {
        /// The lower row.
        first: u16,
        /// The higher row.
        second: u16,
        /// The lowest byte without order.
        byte: u16,
    },
    /// A reader's source was overwritten before it read.
    Overwritten {
        /// The row that read.
        reader: u16,
        /// The row that wrote over what it read.
        writer: u16,
        /// The byte.
        byte: u16,
    },
    /// Edges lead from a row back to itself; edge k leaves row k.
    Cycle {
        /// The rows, each before the next and the last before the first.
        rows: L,
        /// The number of the edge that leaves each row.
        edges: L,
    },
    /// The table breaks a rule of form.
    Refused {
        /// Which rule of form is broken.
        number: u16,
        /// The row that breaks it, 0 where it is no row's.
        row: u16,
    },
}

/// A check's answer whose lists lie in the checker's own buffer.
pub type CheckAnswer<'a> = CheckAnswerOf<&'a [u16]>;
/// A check's answer with lists of its own.
pub type OwnedCheckAnswer = CheckAnswerOf<Vec<u16>>;

impl<L> CheckAnswerOf<L> {
    pub(crate) fn with<'a, M>(&'a self, list: impl Fn(&'a L) -> M) -> CheckAnswerOf<M> {
        use CheckAnswerOf::{Cycle, Overwritten, Race, RaceFree, Refused};
        match *self {
            RaceFree => RaceFree,
            Race {
                first,
                second,
                byte,
            } => Race {
                first,
                second,
                byte,
            },
            Overwritten {
                reader,
                writer,
                byte,
            } => Overwritten {
                reader,
                writer,
                byte,
            },
            Cycle {
                ref rows,
                ref edges,
            } => Cycle {
                rows: list(rows),
                edges: list(edges),
            },
            Refused { number, row } => Refused { number, row },
        }
    }
}

/// What a fill answers, its list borrowed or owned.
#[derive(Clone, Copy, Debug, PartialEq, Eq)]
#[non_exhaustive]
pub enum FillAnswerOf<L> {
    /// One source for each row, 65535 where a row doesn't read.
    Filled(L),
    /// No filling is consistent.
    None,
    /// Two rows conflict and have no order at a byte.
    Race {
        /// The lower row.
        first: u16,
        /// The higher row.
        second: u16,
        /// The lowest byte without order.
        byte: u16,
    },
    /// The table breaks a rule of form.
    Refused {
        /// Which rule of form is broken.
        number: u16,
        /// The row that breaks it, 0 where it is no row's.
        row: u16,
    },
}

/// A fill's answer whose list lies in the checker's own buffer.
pub type FillAnswer<'a> = FillAnswerOf<&'a [u16]>;
/// A fill's answer with a list of its own.
pub type OwnedFillAnswer = FillAnswerOf<Vec<u16>>;

impl<L> FillAnswerOf<L> {
    pub(crate) fn with<'a, M>(&'a self, list: impl Fn(&'a L) -> M) -> FillAnswerOf<M> {
        use FillAnswerOf::{Filled, None, Race, Refused};
        match *self {
            Filled(ref sources) => Filled(list(sources)),
            None => None,
            Race {
                first,
                second,
                byte,
            } => Race {
                first,
                second,
                byte,
            },
            Refused { number, row } => Refused { number, row },
        }
    }
}

/// Answers that own their lists, so that they outlive the checker's next one,
/// and the same answers borrowed from them.
macro_rules! owned_and_borrowed {
    ($($answer:ident)*) => {
        $(
            impl $answer<&[u16]> {
                /// The same with lists of its own, which no longer borrows the checker.
                pub fn into_owned(self) -> $answer<Vec<u16>> {
                    self.with(|list| list.to_vec())
                }
            }

            impl $answer<Vec<u16>> {
                /// The same as the checker gives it.
                pub fn borrowed(&self) -> $answer<&[u16]> {
                    self.with(Vec::as_slice)
                }
            }
        )*
    };
}
pub(crate) use owned_and_borrowed;

owned_and_borrowed!(CheckAnswerOf FillAnswerOf);

impl<L: AsRef<[u16]>> fmt::Display for CheckAnswerOf<L> {
    fn fmt(&self, formatter: &mut fmt::Formatter) -> fmt::Result {
        match self {
            CheckAnswerOf::RaceFree => write!(formatter, "race-free"),
            CheckAnswerOf::Race {
                first,
                second,
                byte,
            } => write!(formatter, "race {first} {second} {byte}"),
            CheckAnswerOf::Overwritten {
                reader,
                writer,
                byte,
            } => write!(formatter, "overwritten {reader} {writer} {byte}"),
            CheckAnswerOf::Cycle { rows, edges } => {
                write!(formatter, "cycle {} rows", rows.as_ref().len())?;
                write_numbers(formatter, rows)?;
                write!(formatter, " edges")?;
                write_numbers(formatter, edges)
            }
            CheckAnswerOf::Refused { number, row } => write!(formatter, "refused {number} {row}"),
        }
    }
}

impl<L: AsRef<[u16]>> fmt::Display for FillAnswerOf<L> {
    fn fmt(&self, formatter: &mut fmt::Formatter) -> fmt::Result {
        match self {
            FillAnswerOf::Filled(sources) => {
                write!(formatter, "filled")?;
                write_numbers(formatter, sources)
            }
            FillAnswerOf::None => write!(formatter, "none"),
            FillAnswerOf::Race {
                first,
                second,
                byte,
            } => write!(formatter, "race {first} {second} {byte}"),
            FillAnswerOf::Refused { number, row } => write!(formatter, "refused {number} {row}"),
        }
    }
}

/// The numbers, each with a space before it.
pub(crate) fn write_numbers(
    formatter: &mut fmt::Formatter,
    numbers: &impl AsRef<[u16]>,
) -> fmt::Result {
    let mut numbers = numbers.as_ref().iter();
    numbers.try_for_each(|number| write!(formatter, " {number}"))
}
