//! A table's rows, one after the other.

use crate::answer::{foreign, Code};
use crate::engine::read_in;
use crate::writer::{refusal, Refusal};
use crate::{Row, READ_DEPENDENCIES, READ_PLACES, READ_ROWS, ROW_BYTES};
use std::iter::FusedIterator;

/// Steps through one table: it holds the bytes that it was lent, its rows and its
/// place in them, and gives rows 0 onward, each once. The table is admitted once,
/// when it is opened.
///
/// ```
/// use stramashly::{Row, Rows, TableWriter, INITIAL};
///
/// let row = Row { kind: 1, length: 4, source: INITIAL, ..Row::default() };
/// let table = TableWriter::new(1).place([0; 4]).row(row).write().unwrap();
/// let mut rows = Rows::open(&table).unwrap();
/// assert_eq!(rows.next(), Some(row));
/// assert_eq!(rows.next(), None);
/// assert_eq!(rows.next(), None);
/// assert_eq!(Rows::open(&table[..7]).unwrap_err().to_string(), "refused 1 0");
/// ```
#[derive(Clone, Debug)]
pub struct Rows<'a> {
    table: &'a [u8],
    rows: [u8; READ_ROWS],
    at: usize,
    count: usize,
}

impl<'a> Rows<'a> {
    /// Opens a table that a fill admits; else gives its refusal.
    pub fn open(table: &'a [u8]) -> Result<Rows<'a>, Refusal> {
        let mut rows = [0; READ_ROWS];
        let (places, dependencies) = (&mut [0; READ_PLACES], &mut [0; READ_DEPENDENCIES]);
        let packed = read_in(table, places, &mut rows, dependencies);
        match packed.code() {
            Some(Code::Read) => Ok(Rows {
                table,
                rows,
                at: 0,
                count: packed.b().into(),
            }),
            Some(Code::Refused) => Err(refusal(packed)),
            _ => foreign(packed),
        }
    }

    /// The table that is stepped through.
    pub fn table(&self) -> &'a [u8] {
        self.table
    }
}

impl Iterator for Rows<'_> {
    type Item = Row;

    fn next(&mut self) -> Option<Row> {
        if self.at == self.count {
            return None;
        }
        let row = self.rows[self.at * ROW_BYTES..].first_chunk()?;
        self.at += 1;
        Some(Row::from_bytes(*row))
    }

    fn size_hint(&self) -> (usize, Option<usize>) {
        let left = self.count - self.at;
        (left, Some(left))
    }
}

impl ExactSizeIterator for Rows<'_> {}

impl FusedIterator for Rows<'_> {}
