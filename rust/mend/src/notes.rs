//! What a table's text has and its bytes don't: names of agents and
//! references, labels of rows, and where in a program each row stands.

use crate::steps::Step;
use std::collections::BTreeMap;
use std::fmt;

/// Names, labels and places; empty for a table that came as bytes.
#[derive(Clone, Debug, Default, PartialEq, Eq)]
pub struct Notes {
    /// The agents' names, agent 0 first.
    pub agents: Vec<Option<String>>,
    /// The references' names by their numbers.
    pub references: BTreeMap<u16, String>,
    /// What is noted of each row, row 0 first.
    pub rows: Vec<RowNote>,
}

/// What is noted of a row.
#[derive(Clone, Debug, Default, PartialEq, Eq)]
pub struct RowNote {
    /// What the text calls it.
    pub label: Option<String>,
    /// Where in the program it stands.
    pub place: Option<Place>,
    /// The line and column of the text that it begins at.
    pub spot: (usize, usize),
}

/// A line of a program's file, and maybe a column of it; each from 1.
#[derive(Clone, Debug, PartialEq, Eq, Hash)]
pub struct Place {
    /// The file's name.
    pub file: String,
    /// Its line.
    pub line: u32,
    /// The line's column.
    pub column: Option<u32>,
}

impl Place {
    /// A place written `FILE:LINE` or `FILE:LINE:COLUMN`; the reason if it isn't.
    pub fn parse(text: &str) -> Result<Place, String> {
        let bad = || format!("expected a place like shader.comp:12, not `{text}`");
        let (rest, last) = text.rsplit_once(':').ok_or_else(bad)?;
        let last = counted(last).ok_or_else(bad)?;
        let (file, line, column) = match rest.rsplit_once(':') {
            Some((file, line)) if counted(line).is_some() => {
                (file, counted(line).unwrap_or(last), Some(last))
            }
            _ => (rest, last, None),
        };
        // A file's name must come out of a text as it went in.
        let is_odd = file.is_empty()
            || file != file.trim()
            || file.contains(char::is_control)
            || file.starts_with('#')
            || file.contains(" #");
        if is_odd {
            return Err(bad());
        }
        Ok(Place {
            file: file.to_string(),
            line,
            column,
        })
    }
}

impl Place {
    /// Without the folders, for pictures.
    pub fn short(&self) -> String {
        let file = self.file.rsplit(['/', '\\']).next();
        format!("{}:{}", file.unwrap_or(&self.file), self.line)
    }
}

/// A number from 1 on.
fn counted(word: &str) -> Option<u32> {
    let are_digits = word.bytes().all(|letter| letter.is_ascii_digit());
    word.parse().ok().filter(|count| are_digits && *count > 0)
}

impl fmt::Display for Place {
    fn fmt(&self, formatter: &mut fmt::Formatter) -> fmt::Result {
        write!(formatter, "{}:{}", self.file, self.line)?;
        match self.column {
            Some(column) => write!(formatter, ":{column}"),
            None => Ok(()),
        }
    }
}

impl Notes {
    /// Where in the program a row stands.
    pub fn place(&self, row: usize) -> Option<&Place> {
        self.rows.get(row)?.place.as_ref()
    }

    /// The notes of a table after these steps: new rows have none.
    pub fn stepped(&self, steps: &[Step]) -> Notes {
        let mut notes = self.clone();
        for step in steps {
            if let Step::Insert(insertion) = step {
                let place = insertion.place.min(notes.rows.len());
                notes.rows.insert(place, RowNote::default());
            }
        }
        notes
    }

    /// An agent's name.
    pub fn agent(&self, agent: usize) -> Option<&str> {
        self.agents.get(agent)?.as_deref()
    }

    /// What the text calls a row.
    pub fn label(&self, row: usize) -> Option<&str> {
        self.rows.get(row)?.label.as_deref()
    }
}

#[cfg(test)]
mod tests {
    use super::*;

    #[test]
    fn places_are_read_and_written() {
        for text in ["a.comp:1", "a b.comp:12:3", "C:\\x\\a.comp:7", "a:b:c:2"] {
            assert_eq!(Place::parse(text).unwrap().to_string(), text);
        }
        for text in [
            "a.comp",
            "a.comp:",
            ":3",
            "a:0",
            "a:-1",
            "a:+1",
            " a:1",
            "a #b:1",
            "#a:1",
            "a\tb:1",
            "a:99999999999",
        ] {
            assert!(Place::parse(text).is_err(), "{text}");
        }
    }
}
