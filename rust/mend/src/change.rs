//! A change that might end a race.

use crate::dependency::Dependency;
use crate::edit::Edit;

/// Edits of the rows of one instruction that go together.
#[derive(Clone, Debug, PartialEq, Eq)]
pub struct Change {
    /// The rows that the instruction is recorded in; none where it is new.
    pub rows: Vec<usize>,
    pub edits: Vec<Edit>,
    /// Why they might be what is missing.
    pub reasons: Vec<Reason>,
}

/// What a row lacks.
#[derive(Clone, Copy, Debug, PartialEq, Eq)]
pub enum Reason {
    /// A plain row is private.
    Private { row: usize },
    /// A plain row doesn't make available, or visible, itself.
    PlainFlag { row: usize, scope: u8 },
    /// A release doesn't make available, or an acquire visible, or neither.
    NoFlag { row: usize, flag: u8 },
    /// A scope doesn't reach; in a wider one the rank may be another's too.
    Narrow {
        row: usize,
        scope: u8,
        is_ranked: bool,
    },
    /// A class isn't named.
    LacksClass { row: usize, class: u8 },
    /// A row doesn't release, or doesn't acquire.
    LacksOrder {
        row: usize,
        order: u8,
        classes: u8,
        is_flagged: bool,
    },
    /// Rows of one instruction have what they have in different rows only.
    Mixed { row: usize },
    /// Racing rows go by different references.
    OtherReference { row: usize, other: usize },
    /// An atomic read something else than the row that would order them.
    OtherSource { row: usize, source: usize },
    /// An atomic write stands in a release sequence's way.
    EndsSequence { row: usize },
    /// Racing rows are plain.
    NotAtomic { row: usize, scope: u8 },
    /// No release and acquire of a flag stand between the rows.
    NoHandshake {
        before: usize,
        after: usize,
        scope: u8,
        classes: u8,
    },
    /// The agents don't meet between the rows.
    NoMeeting {
        before: usize,
        after: usize,
        scope: u8,
        classes: u8,
    },
    /// Operations of a queue, or dependencies, are missing: their kinds, and
    /// the rows that they join, numbered with the new ones put in.
    NotCarried {
        before: usize,
        after: usize,
        operations: [Option<u8>; MOST_OPERATIONS],
        joined: [Option<Dependency>; MOST_ARROWS],
    },
}

/// L5 asks for so many operations at most, and for one arrow more.
pub const MOST_OPERATIONS: usize = 3;
pub const MOST_ARROWS: usize = MOST_OPERATIONS + 1;

impl Reason {
    /// The same of rows that have other numbers.
    pub fn renumbered(mut self, number: impl Fn(usize) -> usize) -> Reason {
        match &mut self {
            Reason::NoHandshake { before, after, .. } | Reason::NoMeeting { before, after, .. } => {
                (*before, *after) = (number(*before), number(*after));
            }
            Reason::OtherReference { row, other } => {
                (*row, *other) = (number(*row), number(*other));
            }
            Reason::Private { row } => *row = number(*row),
            // New rows go with no others.
            _ => (),
        }
        self
    }
}
