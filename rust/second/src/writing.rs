//! The writer: values become a table; and a table's rows, one by one.

use crate::admission::{Purpose, Refusal};
use crate::state::State;
use crate::table::*;
use crate::{MAX_AGENTS, MAX_DEPENDENCIES, MAX_ROWS};
use std::fmt;

/// What a table is made of.
#[derive(Clone, Debug, Default, PartialEq, Eq)]
pub struct Values {
    pub version: u8,
    /// Family, workgroup and subgroup numbers of each agent, and its sort.
    pub places: Vec<[u16; 4]>,
    pub rows: Vec<Row>,
    pub dependencies: Vec<[u16; 2]>,
}

/// What a writer answers.
#[derive(Clone, Debug, PartialEq, Eq)]
pub enum WriteAnswer {
    Refused { number: u8, row: u16 },
    Written(Vec<u8>),
}

/// What stepping through a table gives before the end.
#[derive(Clone, Debug, PartialEq, Eq)]
pub enum RowsAnswer {
    Refused { number: u8, row: u16 },
    Rows(Vec<[u8; ROW_BYTES]>),
}

/// A refusal's number and the test whether it holds of values.
type Test = (u8, fn(&Values) -> bool);

impl State {
    /// The table of these values, for a lent buffer of so many bytes.
    pub fn write(&mut self, values: &Values, room: usize) -> WriteAnswer {
        self.row_count = 0;
        let refused = |number, row| WriteAnswer::Refused { number, row };
        let before_rows: [Test; 5] = [
            (2, refusal_2),
            (3, refusal_3),
            (16, refusal_16),
            (17, refusal_17),
            (18, refusal_18),
        ];
        if let Some((number, _)) = before_rows.iter().find(|(_, holds)| holds(values)) {
            return refused(*number, 0);
        }
        if let Some(Refusal { number, row }) = self.refusal_of_rows(values) {
            return refused(number, row);
        }
        let table = values.bytes();
        // Refusal 13: the lent buffer is shorter than the table.
        if room < table.len() {
            return refused(13, 0);
        }
        WriteAnswer::Written(table)
    }

    /// The first refusal that a row gets, blanks allowed as in a fill.
    fn refusal_of_rows(&mut self, values: &Values) -> Option<Refusal> {
        self.version = values.version;
        for (agent, place) in values.places.iter().enumerate() {
            self.agents[agent] = [place[0], place[1], place[2]];
            self.sorts[agent] = place[3];
        }
        self.rows[..values.rows.len()].copy_from_slice(&values.rows);
        self.row_count = values.rows.len();
        let refusal = self
            .refusal_by_row_alone(values.places.len())
            .or_else(|| self.refusal_among_rows(Purpose::Fill));
        self.row_count = 0;
        refusal
    }

    /// The rows of a table, in order, unless a fill would refuse it.
    pub fn step_through(&mut self, table: &[u8]) -> RowsAnswer {
        self.row_count = 0;
        if let Err(Refusal { number, row }) = self.admit(table, Purpose::Fill) {
            return RowsAnswer::Refused { number, row };
        }
        let rows = self.rows[..self.row_count].iter();
        RowsAnswer::Rows(rows.map(|row| row_bytes(*row)).collect())
    }
}

/// Refusal 2: a version that there is not.
fn refusal_2(values: &Values) -> bool {
    values.version < PLAIN_RANKS || values.version > WITH_HOSTS
}

/// Refusal 3: agents over 32 or rows over 128.
fn refusal_3(values: &Values) -> bool {
    values.places.len() > MAX_AGENTS || values.rows.len() > MAX_ROWS
}

/// Refusal 16: a fourth number over 2; where there are no hosts, any but 0.
fn refusal_16(values: &Values) -> bool {
    values.places.iter().any(|place| match values.version {
        WITH_HOSTS => place[3] > 2,
        _ => place[3] != 0,
    })
}

/// Refusal 17: more than 64 dependencies; where there are no hosts, any.
fn refusal_17(values: &Values) -> bool {
    match values.version {
        WITH_HOSTS => values.dependencies.len() > MAX_DEPENDENCIES,
        _ => !values.dependencies.is_empty(),
    }
}

/// Refusal 18: a dependency that names no row.
fn refusal_18(values: &Values) -> bool {
    let is_row = |row: &u16| usize::from(*row) < values.rows.len();
    !values.dependencies.iter().flatten().all(is_row)
}

impl Values {
    /// What a table was made of. The table has an admissible header.
    pub fn of(table: &[u8]) -> Values {
        let (agents, rows) = (usize::from(table[5]), usize::from(table[6]));
        let place = |agent| {
            let [family, workgroup, subgroup] = agent_places(table, agent);
            [family, workgroup, subgroup, agent_sort(table, agent)]
        };
        let mut dependencies = Vec::new();
        if table[4] == WITH_HOSTS {
            let at = dependencies_at(agents, rows);
            let count = usize::from(two_bytes(table, at));
            dependencies.extend((0..count).map(|number| dependency_of(table, at, number)));
        }
        Values {
            version: table[4],
            places: (0..agents).map(place).collect(),
            rows: (0..rows).map(|row| row_of(table, agents, row)).collect(),
            dependencies,
        }
    }

    /// The table's bytes, admissible or not; counts must fit in theirs.
    pub fn bytes(&self) -> Vec<u8> {
        let numbers = agent_bytes(self.version) / 2;
        let mut following = vec![
            self.version,
            self.places.len() as u8,
            self.rows.len() as u8,
            0,
        ];
        for place in &self.places {
            following.extend(
                place[..numbers]
                    .iter()
                    .flat_map(|number| number.to_be_bytes()),
            );
        }
        following.extend(self.rows.iter().flat_map(|row| row_bytes(*row)));
        if self.version == WITH_HOSTS {
            following.extend((self.dependencies.len() as u16).to_be_bytes());
            let rows = self.dependencies.iter().flatten();
            following.extend(rows.flat_map(|row| row.to_be_bytes()));
        }
        let mut table = (following.len() as u32).to_be_bytes().to_vec();
        table.append(&mut following);
        table
    }
}

/// A row's bytes in the table's order.
pub fn row_bytes(row: Row) -> [u8; ROW_BYTES] {
    let mut bytes = [0; ROW_BYTES];
    let small = [
        row.kind,
        row.agent,
        row.order,
        row.scope,
        row.classes,
        row.flags,
        row.class,
        row.length,
    ];
    bytes[..8].copy_from_slice(&small);
    let large = [row.start, row.reference, row.source, row.rank];
    for (place, number) in large.iter().enumerate() {
        bytes[8 + 2 * place..][..2].copy_from_slice(&number.to_be_bytes());
    }
    bytes
}

impl fmt::Display for WriteAnswer {
    fn fmt(&self, formatter: &mut fmt::Formatter) -> fmt::Result {
        match self {
            WriteAnswer::Refused { number, row } => write!(formatter, "refused {number} {row}"),
            WriteAnswer::Written(table) => {
                write!(formatter, "written ")?;
                write_hex(formatter, table)
            }
        }
    }
}

impl fmt::Display for RowsAnswer {
    fn fmt(&self, formatter: &mut fmt::Formatter) -> fmt::Result {
        match self {
            RowsAnswer::Refused { number, row } => write!(formatter, "refused {number} {row}"),
            RowsAnswer::Rows(rows) => {
                for row in rows {
                    write_hex(formatter, row)?;
                    write!(formatter, " ")?;
                }
                write!(formatter, "end")
            }
        }
    }
}

fn write_hex(formatter: &mut fmt::Formatter, bytes: &[u8]) -> fmt::Result {
    bytes
        .iter()
        .try_for_each(|byte| write!(formatter, "{byte:02X}"))
}
