//! Refusals by name, with a sentence for each.

use crate::writer::Refusal;

/// Number, name and sentence of every refusal. The names are those of `enum
/// stramashly_refusal` in the C header.
pub const REFUSALS: [(u16, &str, &str); 21] = [
    (1, "SHORT", "the table has fewer than 8 bytes"),
    (
        2,
        "VERSION",
        "the version is not 1, 2 or 3, or byte 7 isn't 0",
    ),
    (
        3,
        "LIMITS",
        "there are more than 32 agents or more than 128 rows",
    ),
    (
        4,
        "LENGTH",
        "the table hasn't as many bytes as its header says",
    ),
    (5, "CODE", "a code of the row is out of range"),
    (
        6,
        "KIND_FIT",
        "the row has fields that its kind may not have",
    ),
    (
        7,
        "EXTENT",
        "the row has a length or a start that its access may not have",
    ),
    (
        8,
        "CLASS",
        "the row's reference has another class in an earlier row",
    ),
    (
        9,
        "SOURCE",
        "the row's source is no row that it can have read, or a blank where none may be",
    ),
    (
        10,
        "RANK",
        "the row has the rank of an earlier writer that is mutually-ordered with it",
    ),
    (11, "BUFFER", "a lent buffer is shorter than the call needs"),
    (
        12,
        "MOMENTS",
        "these aren't two different moments of the table",
    ),
    (
        13,
        "ROOM",
        "the buffer is shorter than the table that is to be written",
    ),
    (
        14,
        "INSTANCE",
        "the control barrier doesn't fit the other rows of its instance",
    ),
    (
        15,
        "RUN",
        "the row's rank is too far from those of its location for a counter of 16 bits",
    ),
    (
        16,
        "AGENT_KIND",
        "an agent is no shader, host or queue agent, or isn't one of this version",
    ),
    (
        17,
        "DEPENDENCIES",
        "there are more dependencies than there may be",
    ),
    (
        18,
        "DEPENDENCY",
        "a dependency names a row that isn't there",
    ),
    (
        19,
        "AGENT_ROW",
        "the row's agent may not have a row of this kind",
    ),
    (
        20,
        "OPERATION_FIT",
        "a queue agent's row has a field that it may not have",
    ),
    (40, "ROWS", "the second piece isn't whole rows of 16 bytes"),
];

impl Refusal {
    /// The refusal's name, as in the C header; none of a number that no refusal has.
    pub fn name(self) -> Option<&'static str> {
        Some(self.entry()?.1)
    }

    /// What the rule asks that the table doesn't keep.
    pub fn sentence(self) -> Option<&'static str> {
        Some(self.entry()?.2)
    }

    fn entry(self) -> Option<&'static (u16, &'static str, &'static str)> {
        REFUSALS.iter().find(|(number, ..)| *number == self.number)
    }
}
