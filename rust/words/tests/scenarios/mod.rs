//! Runs with bugs as shaders have them, made for the tests: a hand-over, a
//! reduction, a spinlock, a seqlock, a ring, an upload and a ladder of 32
//! agents, with places in a program and without.

#![allow(dead_code)]

mod device;
mod uploads;
mod workgroup;

use mend::{Notes, Place, RowNote};
use tables::{Row, Table};

/// A racing table with one bug, and what is noted of it.
pub struct Scenario {
    pub name: String,
    pub table: Vec<u8>,
    pub notes: Notes,
}

/// A table in the making.
pub struct Builder {
    name: String,
    agents: Vec<[u16; 3]>,
    rows: Vec<Row>,
    notes: Vec<RowNote>,
    has_places: bool,
}

impl Builder {
    pub fn new(name: &str, agents: &[[u16; 3]], has_places: bool) -> Builder {
        let places = if has_places { "with" } else { "without" };
        Builder {
            name: format!("{name}, {places} places"),
            agents: agents.to_vec(),
            rows: Vec::new(),
            notes: Vec::new(),
            has_places,
        }
    }

    /// Adds a row of a line of the shader, and gives its number.
    pub fn push(&mut self, row: Row, line: u32) -> u16 {
        let place = Place {
            file: "run.comp".to_string(),
            line,
            column: None,
        };
        self.rows.push(row);
        self.notes.push(RowNote {
            place: self.has_places.then_some(place),
            ..RowNote::default()
        });
        self.rows.len() as u16 - 1
    }

    pub fn scenario(self) -> Scenario {
        let table = Table::new(&self.agents, &self.rows);
        self.of(table)
    }

    /// The same with another table of these rows.
    pub fn of(self, table: Table) -> Scenario {
        Scenario {
            name: self.name,
            table: table.bytes(),
            notes: Notes {
                rows: self.notes,
                ..Notes::default()
            },
        }
    }

    pub fn rows(&self) -> &[Row] {
        &self.rows
    }
}

/// The lock that 32 agents take in turn, 128 rows without a bug.
pub fn mended_ladder() -> Scenario {
    device::ladder(32, "", true)
}

/// Every scenario.
pub fn all() -> Vec<Scenario> {
    let mut scenarios = Vec::new();
    for has_places in [false, true] {
        scenarios.extend(device::all(has_places));
        scenarios.extend(workgroup::all(has_places));
        scenarios.extend(uploads::all(has_places));
    }
    scenarios
}
