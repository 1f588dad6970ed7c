//! A table written from values, and a table's rows: what `write` and `rows`
//! answer.

use crate::answers::{put_refusal, Answer};
use crate::question::Writing;
use crate::verdict::Verdict;
use format::{digits, Object};
use std::fmt::{self, Display};
use stramashly::{write_in, Code, Refusal, Row, Rows};

/// The table, or why there is none.
pub struct Written(Result<Vec<u8>, Refusal>);

/// The rows, or why the table isn't opened.
pub struct Stepped(Result<Vec<Row>, Refusal>);

pub fn write(writing: &Writing) -> Written {
    let mut out = vec![0; usize::from(writing.room)];
    let packed = write_in(
        writing.version,
        &writing.places,
        &writing.rows,
        &writing.dependencies,
        &mut out,
    );
    if packed.code() == Some(Code::Written) {
        out.truncate(usize::from(packed.a()));
        return Written(Ok(out));
    }
    Written(Err(Refusal {
        number: packed.a(),
        row: packed.b(),
    }))
}

pub fn rows(table: &[u8]) -> Stepped {
    Stepped(Rows::open(table).map(Iterator::collect))
}

impl Display for Written {
    fn fmt(&self, formatter: &mut fmt::Formatter) -> fmt::Result {
        match &self.0 {
            Ok(table) => write!(formatter, "written {}", digits(table)),
            Err(refusal) => write!(formatter, "{refusal}"),
        }
    }
}

impl Answer for Written {
    fn verdict(&self) -> Verdict {
        match self.0 {
            Ok(_) => Verdict::Written,
            Err(_) => Verdict::Refused,
        }
    }

    fn put(&self, object: &mut Object) {
        match &self.0 {
            Ok(table) => object.text("table", &digits(table)),
            Err(refusal) => put_refusal(object, refusal.number, refusal.row),
        }
    }
}

impl Display for Stepped {
    fn fmt(&self, formatter: &mut fmt::Formatter) -> fmt::Result {
        match &self.0 {
            Ok(rows) => {
                for row in rows {
                    write!(formatter, "{} ", digits(&row.bytes()))?;
                }
                write!(formatter, "end")
            }
            Err(refusal) => write!(formatter, "{refusal}"),
        }
    }
}

impl Answer for Stepped {
    fn verdict(&self) -> Verdict {
        match self.0 {
            Ok(_) => Verdict::Rows,
            Err(_) => Verdict::Refused,
        }
    }

    fn put(&self, object: &mut Object) {
        match &self.0 {
            Ok(rows) => {
                let rows: Vec<String> = rows.iter().map(|row| digits(&row.bytes())).collect();
                object.texts("rows", &rows);
            }
            Err(refusal) => put_refusal(object, refusal.number, refusal.row),
        }
    }
}
