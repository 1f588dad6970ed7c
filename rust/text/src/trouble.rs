//! What is wrong with a text, and where.

use std::fmt;

/// A place in a text: line and column, each counted from 1, the column in
/// letters.
#[derive(Clone, Copy, Debug, Default, PartialEq, Eq, PartialOrd, Ord)]
pub struct Spot {
    /// The line.
    pub line: usize,
    /// The column.
    pub column: usize,
}

impl Spot {
    /// What is wrong here.
    pub fn trouble(self, reason: impl Into<String>) -> Trouble {
        Trouble {
            line: self.line,
            column: self.column,
            reason: reason.into(),
        }
    }
}

/// The first thing that is wrong, its place, and what was expected.
#[derive(Clone, Debug, PartialEq, Eq)]
pub struct Trouble {
    /// The line, from 1.
    pub line: usize,
    /// The letter of the line, from 1.
    pub column: usize,
    /// What is wrong, and what was expected.
    pub reason: String,
}

impl fmt::Display for Trouble {
    fn fmt(&self, formatter: &mut fmt::Formatter) -> fmt::Result {
        write!(formatter, "{}:{}: {}", self.line, self.column, self.reason)
    }
}
