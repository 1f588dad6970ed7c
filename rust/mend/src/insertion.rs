//! Rows put into a table.

use crate::dependency::count_changed;
use crate::edit::{whole_number, Field, FIELDS};
use crate::run::{dependency_count, first_row, past_rows, Run};
use second::table::{Row, COUNT_BYTES, DEPENDENCY_BYTES, HEADER_BYTES, ROW_BYTES, WITH_HOSTS};
use second::{row_bytes, BLANK, INITIAL, MAX_ROWS};
use std::fmt;
use std::str::FromStr;

/// A row put in at a place, written `insert 1 kind 5 agent 0 order 2`: the
/// fields that aren't zero, and the source if there is one. Rows from there on
/// move on by one, and sources and dependencies with them; its own source counts the rows as
/// they are afterwards.
#[derive(Clone, Copy, Debug, PartialEq, Eq)]
pub struct Insertion {
    pub place: usize,
    pub row: Row,
}

impl Insertion {
    /// Where a row is afterwards.
    pub fn moved(self, row: usize) -> usize {
        row + usize::from(row >= self.place)
    }

    /// Puts the row in; the reason if the table has no such place or no room.
    pub fn apply(self, table: &mut Vec<u8>) -> Result<(), String> {
        let rows = row_count(table)?;
        if self.place > rows {
            return Err(format!("{rows} rows have no place {}", self.place));
        }
        if rows >= MAX_ROWS {
            return Err(format!("a table has at most {MAX_ROWS} rows"));
        }
        let first = first_row(table);
        for row in 0..rows {
            let at = first + ROW_BYTES * row + SOURCE;
            let source = u16::from_be_bytes([table[at], table[at + 1]]);
            // The initial value and a blank are no rows.
            if source < BLANK && usize::from(source) >= self.place {
                table[at..at + 2].copy_from_slice(&(source + 1).to_be_bytes());
            }
        }
        for at in dependency_places(table) {
            let row = u16::from_be_bytes([table[at], table[at + 1]]);
            if usize::from(row) >= self.place {
                let row = row.saturating_add(1);
                table[at..at + 2].copy_from_slice(&row.to_be_bytes());
            }
        }
        let at = first + ROW_BYTES * self.place;
        table.splice(at..at, row_bytes(self.row));
        table[6] += 1;
        count_changed(table, ROW_BYTES);
        Ok(())
    }
}

/// Where a row's source stands.
const SOURCE: usize = 12;

/// Where the rows' numbers stand in the dependencies of a whole table.
fn dependency_places(table: &[u8]) -> impl Iterator<Item = usize> {
    let first = past_rows(table) + COUNT_BYTES;
    let numbers = 2 * dependency_count(table).unwrap_or(0);
    (0..numbers).map(move |number| first + 2 * number)
}

/// The rows of a table whose header, agents, rows and dependencies are all
/// there.
pub fn row_count(table: &[u8]) -> Result<usize, String> {
    let bad = "the header doesn't fit the table's bytes".to_string();
    if table.len() < HEADER_BYTES || !Run::is_known(table) {
        return Err(bad);
    }
    let dependencies = match dependency_count(table) {
        Some(count) => COUNT_BYTES + DEPENDENCY_BYTES * count,
        None if table[4] == WITH_HOSTS => return Err(bad),
        None => 0,
    };
    if table.len() != past_rows(table) + dependencies {
        return Err(bad);
    }
    Ok(usize::from(table[6]))
}

impl fmt::Display for Insertion {
    fn fmt(&self, formatter: &mut fmt::Formatter) -> fmt::Result {
        write!(formatter, "insert {}", self.place)?;
        for (field, name, ..) in FIELDS {
            let value = field.of(self.row);
            let unsaid = if field == Field::Source { INITIAL } else { 0 };
            // A row's kind is said, whatever it is.
            if value != unsaid || field == Field::Kind || field == Field::Agent {
                write!(formatter, " {name} {value}")?;
            }
        }
        Ok(())
    }
}

impl FromStr for Insertion {
    type Err = String;

    fn from_str(text: &str) -> Result<Insertion, String> {
        let words: Vec<&str> = text.split_whitespace().collect();
        let ["insert", place, fields @ ..] = &words[..] else {
            return Err(format!("no insertion: {text:?}"));
        };
        let place = whole_number(place, MAX_ROWS);
        let place = place.ok_or(format!("no place for a row: {text:?}"))?;
        let mut row = Row {
            source: INITIAL,
            ..Row::default()
        };
        let mut named = Vec::new();
        for pair in fields.chunks(2) {
            let field = Field::named(pair[0]).ok_or(format!("no field {:?}", pair[0]))?;
            let value = pair
                .get(1)
                .and_then(|value| whole_number(value, field.most()));
            let value = value.ok_or(format!("{} has no number up to {}", pair[0], field.most()))?;
            if named.contains(&field) {
                return Err(format!("{} is given twice", pair[0]));
            }
            named.push(field);
            row = field.set(row, value);
        }
        if !named.contains(&Field::Kind) || !named.contains(&Field::Agent) {
            return Err(format!("a new row has a kind and an agent: {text:?}"));
        }
        Ok(Insertion { place, row })
    }
}
