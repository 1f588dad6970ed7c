//! Edits of a table: one field of one row gets another value.

use crate::run::first_row;
use second::row_bytes;
use second::table::{Row, ROW_BYTES};
use std::fmt;
use std::str::FromStr;

/// A field that an edit may change.
#[derive(Clone, Copy, Debug, PartialEq, Eq, PartialOrd, Ord)]
pub enum Field {
    Kind,
    Agent,
    Order,
    Scope,
    Classes,
    Flags,
    /// Of a control barrier the execution scope.
    Class,
    Length,
    /// Of a control barrier the instance.
    Start,
    Reference,
    Source,
    Rank,
}

/// Each field's name, its place in the row and its bytes.
pub const FIELDS: [(Field, &str, usize, usize); 12] = [
    (Field::Kind, "kind", 0, 1),
    (Field::Agent, "agent", 1, 1),
    (Field::Order, "order", 2, 1),
    (Field::Scope, "scope", 3, 1),
    (Field::Classes, "classes", 4, 1),
    (Field::Flags, "flags", 5, 1),
    (Field::Class, "class", 6, 1),
    (Field::Length, "length", 7, 1),
    (Field::Start, "start", 8, 2),
    (Field::Reference, "reference", 10, 2),
    (Field::Source, "source", 12, 2),
    (Field::Rank, "rank", 14, 2),
];

/// A field's new value, written `row 2 flags 3`.
#[derive(Clone, Copy, Debug, PartialEq, Eq, PartialOrd, Ord)]
pub struct Edit {
    pub row: usize,
    pub field: Field,
    pub value: u16,
}

impl Edit {
    pub fn new(row: usize, field: Field, value: impl Into<u16>) -> Edit {
        let value = value.into();
        Edit { row, field, value }
    }

    /// Changes a table that has the row.
    pub fn apply(self, table: &mut [u8]) {
        let (_, _, place, size) = self.field.entry();
        let at = first_row(table) + ROW_BYTES * self.row + place;
        let bytes = self.value.to_be_bytes();
        table[at..at + size].copy_from_slice(&bytes[2 - size..]);
    }

    /// Both edits in one, if they concern one field and can be joined: sets
    /// are joined, other values must agree.
    pub fn joined(self, other: Edit) -> Option<Edit> {
        let value = match self.field {
            Field::Flags | Field::Classes => self.value | other.value,
            _ if self.value == other.value => self.value,
            _ => return None,
        };
        Some(Edit { value, ..self })
    }
}

impl Field {
    /// The value that a row has.
    pub fn of(self, row: Row) -> u16 {
        match self {
            Field::Kind => row.kind.into(),
            Field::Agent => row.agent.into(),
            Field::Order => row.order.into(),
            Field::Scope => row.scope.into(),
            Field::Classes => row.classes.into(),
            Field::Flags => row.flags.into(),
            Field::Class => row.class.into(),
            Field::Length => row.length.into(),
            Field::Start => row.start,
            Field::Reference => row.reference,
            Field::Source => row.source,
            Field::Rank => row.rank,
        }
    }

    fn entry(self) -> (Field, &'static str, usize, usize) {
        *FIELDS
            .iter()
            .find(|(field, ..)| *field == self)
            .expect("every field has an entry")
    }

    /// Whether the program says it: rank and source come about in the run,
    /// and which reference is which is no instruction's own.
    pub fn is_of_program(self) -> bool {
        !matches!(self, Field::Reference | Field::Source | Field::Rank)
    }

    /// The field of a name.
    pub fn named(name: &str) -> Option<Field> {
        let entry = FIELDS.iter().find(|(_, other, ..)| *other == name);
        entry.map(|(field, ..)| *field)
    }

    /// The field that begins at a byte of the row.
    pub fn at(byte: usize) -> Field {
        let entry = FIELDS.iter().find(|(_, _, place, _)| *place == byte);
        entry.expect("a field begins at this byte").0
    }

    /// As it is written in an edit.
    pub fn name(self) -> &'static str {
        self.entry().1
    }

    /// The most that its bytes hold.
    pub fn most(self) -> u16 {
        if self.entry().3 == 1 {
            255
        } else {
            u16::MAX
        }
    }

    /// Gives a row another value.
    pub fn set(self, row: Row, value: u16) -> Row {
        let mut bytes = row_bytes(row);
        let (_, _, place, size) = self.entry();
        bytes[place..place + size].copy_from_slice(&value.to_be_bytes()[2 - size..]);
        Row::from_bytes(&bytes)
    }
}

impl fmt::Display for Edit {
    fn fmt(&self, formatter: &mut fmt::Formatter) -> fmt::Result {
        let (_, name, ..) = self.field.entry();
        write!(formatter, "row {} {name} {}", self.row, self.value)
    }
}

impl FromStr for Edit {
    type Err = String;

    fn from_str(text: &str) -> Result<Edit, String> {
        let bad = || format!("no edit: {text:?}");
        let words: Vec<&str> = text.split_whitespace().collect();
        let ["row", row, name, value] = words[..] else {
            return Err(bad());
        };
        let field = Field::named(name).ok_or_else(bad)?;
        Ok(Edit {
            row: whole_number(row, usize::MAX).ok_or_else(bad)?,
            field,
            value: whole_number(value, field.most()).ok_or_else(bad)?,
        })
    }
}

/// A number in digits only, up to the most that it may be.
pub fn whole_number<T: FromStr + PartialOrd>(text: &str, most: T) -> Option<T> {
    let are_digits = text.bytes().all(|letter| letter.is_ascii_digit());
    let number = text.parse().ok().filter(|number| *number <= most);
    number.filter(|_| are_digits)
}

/// The table with these edits made.
pub fn edited(table: &[u8], edits: &[Edit]) -> Vec<u8> {
    let mut changed = table.to_vec();
    edits.iter().for_each(|edit| edit.apply(&mut changed));
    changed
}

/// Two lists of edits as one, none if they want different things of a field.
pub fn merged(first: &[Edit], second: &[Edit]) -> Option<Vec<Edit>> {
    let mut edits = first.to_vec();
    for edit in second {
        let known = edits
            .iter_mut()
            .find(|known| known.row == edit.row && known.field == edit.field);
        match known {
            Some(known) => *known = known.joined(*edit)?,
            None => edits.push(*edit),
        }
    }
    Some(edits)
}
