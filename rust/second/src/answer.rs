//! The answers of a check and of a fill.

use crate::MAX_ROWS;
use std::fmt;

/// A short list of numbers that needs no allocation.
#[derive(Clone, Copy)]
pub struct List {
    count: usize,
    numbers: [u16; MAX_ROWS],
}

impl List {
    pub(crate) fn new() -> List {
        List {
            count: 0,
            numbers: [0; MAX_ROWS],
        }
    }

    pub(crate) fn push(&mut self, number: u16) {
        self.numbers[self.count] = number;
        self.count += 1;
    }

    pub fn as_slice(&self) -> &[u16] {
        &self.numbers[..self.count]
    }
}

impl PartialEq for List {
    fn eq(&self, other: &List) -> bool {
        self.as_slice() == other.as_slice()
    }
}

impl Eq for List {}

impl From<&[u16]> for List {
    /// Panics if there are more numbers than rows of a table.
    fn from(numbers: &[u16]) -> List {
        let mut list = List::new();
        numbers.iter().for_each(|number| list.push(*number));
        list
    }
}

impl fmt::Debug for List {
    fn fmt(&self, formatter: &mut fmt::Formatter) -> fmt::Result {
        self.as_slice().fmt(formatter)
    }
}

impl fmt::Display for List {
    /// The numbers, each with a space before it.
    fn fmt(&self, formatter: &mut fmt::Formatter) -> fmt::Result {
        self.as_slice()
            .iter()
            .try_for_each(|number| write!(formatter, " {number}"))
    }
}

/// What a check answers.
#[derive(Clone, Copy, Debug, PartialEq, Eq)]
// Large cases are wanted: an answer needs no allocation.
#[allow(clippy::large_enum_variant)]
pub enum CheckAnswer {
    Refused { number: u8, row: u16 },
    Cycle { rows: List, edges: List },
    Overwritten { reader: u16, writer: u16, byte: u16 },
    Race { first: u16, second: u16, byte: u16 },
    RaceFree,
}

/// What a fill answers.
#[derive(Clone, Copy, Debug, PartialEq, Eq)]
// Large cases are wanted: an answer needs no allocation.
#[allow(clippy::large_enum_variant)]
pub enum FillAnswer {
    Refused {
        number: u8,
        row: u16,
    },
    Race {
        first: u16,
        second: u16,
        byte: u16,
    },
    None,
    /// One source for each row, 65535 where a row doesn't read.
    Filled(List),
    /// More than `MAX_FILLINGS` combinations: nothing was decided.
    TooMany,
}

impl fmt::Display for CheckAnswer {
    fn fmt(&self, formatter: &mut fmt::Formatter) -> fmt::Result {
        match self {
            CheckAnswer::Refused { number, row } => write!(formatter, "refused {number} {row}"),
            CheckAnswer::Cycle { rows, edges } => {
                let length = rows.as_slice().len();
                write!(formatter, "cycle {length} rows{rows} edges{edges}")
            }
            CheckAnswer::Overwritten {
                reader,
                writer,
                byte,
            } => write!(formatter, "overwritten {reader} {writer} {byte}"),
            CheckAnswer::Race {
                first,
                second,
                byte,
            } => write!(formatter, "race {first} {second} {byte}"),
            CheckAnswer::RaceFree => write!(formatter, "race-free"),
        }
    }
}

impl fmt::Display for FillAnswer {
    fn fmt(&self, formatter: &mut fmt::Formatter) -> fmt::Result {
        match self {
            FillAnswer::Refused { number, row } => write!(formatter, "refused {number} {row}"),
            FillAnswer::Race {
                first,
                second,
                byte,
            } => write!(formatter, "race {first} {second} {byte}"),
            FillAnswer::None => write!(formatter, "none"),
            FillAnswer::Filled(sources) => write!(formatter, "filled{sources}"),
            FillAnswer::TooMany => write!(formatter, "error too many fillings"),
        }
    }
}
