//! Tables made of values.

use crate::answer::{Code, Packed};
use crate::engine::{read_in, write_in};
use crate::{Row, MAX_TABLE_BYTES, READ_DEPENDENCIES, READ_PLACES, READ_ROWS, ROW_BYTES};
use std::error::Error;
use std::fmt;

/// Which rule of form is broken, and the row that breaks it.
#[derive(Clone, Copy, Debug, PartialEq, Eq)]
pub struct Refusal {
    /// The rule's number.
    pub number: u16,
    /// The row, 0 where it is no row's.
    pub row: u16,
}

impl fmt::Display for Refusal {
    fn fmt(&self, formatter: &mut fmt::Formatter) -> fmt::Result {
        write!(formatter, "refused {} {}", self.number, self.row)
    }
}

impl Error for Refusal {}

/// Collects a table's values, then writes the table that they make: one that
/// a fill admits, or none.
///
/// ```
/// use stramashly::{CheckAnswer, Checker, Kind, Row, TableWriter, INITIAL};
///
/// let write = Row { kind: Kind::PlainWrite.into(), length: 4, source: INITIAL, ..Row::default() };
/// let read = Row { length: 4, ..Row::default() };
/// let mut writer = TableWriter::new(1);
/// let table = writer.place([0, 0, 0, 0]).row(write).row(read).write().unwrap();
/// assert_eq!(Checker::new().check(&table), CheckAnswer::RaceFree);
///
/// // Its values again.
/// assert_eq!(TableWriter::read(&table).as_ref(), Ok(&writer));
///
/// writer.row(Row { kind: 9, ..write });
/// let refusal = writer.write().unwrap_err();
/// assert_eq!(refusal.to_string(), "refused 5 2");
/// assert_eq!(refusal.name(), Some("CODE"));
/// assert_eq!(refusal.sentence(), Some("a code of the row is out of range"));
/// ```
#[derive(Clone, Debug, PartialEq, Eq)]
pub struct TableWriter {
    version: u8,
    places: Vec<u16>,
    rows: Vec<u8>,
    dependencies: Vec<u16>,
}

impl TableWriter {
    /// A table of a version, without agents so far.
    pub fn new(version: u8) -> TableWriter {
        TableWriter {
            version,
            places: Vec::new(),
            rows: Vec::new(),
            dependencies: Vec::new(),
        }
    }

    /// The values of a table that a fill admits, of which `write` gives the same
    /// bytes; else its refusal.
    pub fn read(table: &[u8]) -> Result<TableWriter, Refusal> {
        let mut places = vec![0; READ_PLACES];
        let mut rows = vec![0; READ_ROWS];
        let mut dependencies = vec![0; READ_DEPENDENCIES];
        let packed = read_in(table, &mut places, &mut rows, &mut dependencies);
        match packed.code() {
            Some(Code::Read) => {
                let [version, agents] = packed.a().to_be_bytes();
                places.truncate(4 * usize::from(agents));
                rows.truncate(ROW_BYTES * usize::from(packed.b()));
                dependencies.truncate(2 * usize::from(packed.c()));
                Ok(TableWriter {
                    version,
                    places,
                    rows,
                    dependencies,
                })
            }
            Some(Code::Refused) => Err(refusal(packed)),
            _ => crate::answer::foreign(packed),
        }
    }

    /// The next agent: its family, workgroup and subgroup numbers, and 0 for
    /// a shader, 1 for a host, 2 for a queue agent; before version 3 it is 0.
    pub fn place(&mut self, numbers: [u16; 4]) -> &mut TableWriter {
        self.places.extend(numbers);
        self
    }

    /// The next row.
    pub fn row(&mut self, row: Row) -> &mut TableWriter {
        self.rows.extend(row.bytes());
        self
    }

    /// In version 3: the first row system-synchronizes-with the second.
    pub fn depend(&mut self, first: u16, second: u16) -> &mut TableWriter {
        self.dependencies.extend([first, second]);
        self
    }

    /// Writes the table into the front of a lent buffer, which is refused with
    /// 13 where it is too short, and gives the table. A refusal writes nothing.
    pub fn write_in<'a>(&self, out: &'a mut [u8]) -> Result<&'a [u8], Refusal> {
        let packed = write_in(
            self.version,
            &self.places,
            &self.rows,
            &self.dependencies,
            out,
        );
        match packed.code() {
            Some(Code::Written) => Ok(&out[..usize::from(packed.a())]),
            Some(Code::Refused) => Err(refusal(packed)),
            _ => crate::answer::foreign(packed),
        }
    }

    /// The table.
    pub fn write(&self) -> Result<Vec<u8>, Refusal> {
        let mut out = [0; MAX_TABLE_BYTES];
        self.write_in(&mut out).map(<[u8]>::to_vec)
    }
}

/// The parts of an answer whose code is refused.
pub(crate) fn refusal(packed: Packed) -> Refusal {
    Refusal {
        number: packed.a(),
        row: packed.b(),
    }
}
