//! A table as it is read: its parts, its notes, and the bytes that come of it.

use crate::assemble::{assemble, refused_bytes};
use crate::trouble::{Spot, Trouble};
use mend::{Notes, RowNote};
use second::table::{Row, SHADER, WITH_HOSTS};
use stramashly::{Refusal, MAX_AGENTS, MAX_DEPENDENCIES, MAX_ROWS};
use words::refusal_lines;

/// A table's parts in the order in which they were read, within its limits.
#[derive(Clone, Debug, Default, PartialEq, Eq)]
pub struct Draft {
    /// The version.
    pub version: u8,
    /// Each agent's family, workgroup, subgroup and sort.
    pub places: Vec<[u16; 4]>,
    /// The rows.
    pub rows: Vec<Row>,
    /// Pairs of rows of which the second depends on the first.
    pub dependencies: Vec<[u16; 2]>,
    /// What isn't in the bytes.
    pub notes: Notes,
}

impl Draft {
    /// The bytes, if a fill takes them.
    pub fn assemble(&self) -> Result<Vec<u8>, Refusal> {
        assemble(self.version, &self.places, &self.rows, &self.dependencies)
    }

    /// The bytes, whether they are refused or not, so that whoever judges them
    /// tells why.
    pub fn bytes(&self) -> Vec<u8> {
        let made = self.assemble();
        made.unwrap_or_else(|_| {
            refused_bytes(self.version, &self.places, &self.rows, &self.dependencies)
        })
    }

    /// Why the bytes are refused, with the row's place in the text.
    pub fn refusal(&self) -> Option<Trouble> {
        let Refusal { number, row } = self.assemble().err()?;
        let lines = refusal_lines(&self.bytes(), number, usize::from(row));
        let lines: Vec<&str> = lines.iter().map(|line| line.trim()).collect();
        let (line, column) = match self.notes.rows.get(usize::from(row)) {
            Some(note) => note.spot,
            None => (1, 1),
        };
        let reason = format!("refused {number} {row}: {}", lines.join(" "));
        Some(Spot { line, column }.trouble(reason))
    }

    pub(crate) fn has_hosts(&self) -> bool {
        self.version == WITH_HOSTS
    }

    pub(crate) fn push_agent(
        &mut self,
        place: [u16; 4],
        name: Option<String>,
        spot: Spot,
    ) -> Result<(), Trouble> {
        if self.places.len() == MAX_AGENTS {
            return Err(spot.trouble(format!("a table has at most {MAX_AGENTS} agents")));
        }
        if place[3] != SHADER && !self.has_hosts() {
            return Err(spot.trouble("only version 3 has host and queue agents"));
        }
        self.places.push(place);
        self.notes.agents.push(name);
        Ok(())
    }

    pub(crate) fn push_row(&mut self, row: Row, note: RowNote) -> Result<(), Trouble> {
        if self.rows.len() == MAX_ROWS {
            let (line, column) = note.spot;
            let spot = Spot { line, column };
            return Err(spot.trouble(format!("a table has at most {MAX_ROWS} rows")));
        }
        self.rows.push(row);
        self.notes.rows.push(note);
        Ok(())
    }

    pub(crate) fn push_dependency(&mut self, rows: [u16; 2], spot: Spot) -> Result<(), Trouble> {
        if !self.has_hosts() {
            return Err(spot.trouble("only version 3 has dependencies"));
        }
        if self.dependencies.len() == MAX_DEPENDENCIES {
            let reason = format!("a table has at most {MAX_DEPENDENCIES} dependencies");
            return Err(spot.trouble(reason));
        }
        self.dependencies.push(rows);
        Ok(())
    }

    /// The last kind of row that the version has.
    pub(crate) fn last_kind(&self) -> u8 {
        use second::table::{CONTROL_BARRIER, DEVICE_TO_HOST};
        if self.has_hosts() {
            DEVICE_TO_HOST
        } else {
            CONTROL_BARRIER
        }
    }
}
