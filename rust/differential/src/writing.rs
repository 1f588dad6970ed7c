//! Tables written from values, read back, and stepped through, by both.

use crate::{first_difference, Comparison, Difference};
use second::{row_bytes, RowsAnswer, Values, WriteAnswer};
use stramashly::{
    open_in, read_in, row_in, write_in, Code, Packed, Rows, READ_DEPENDENCIES, READ_PLACES,
    READ_ROWS, ROW_BYTES,
};
use tables::hex;

/// The lent parts that a table's values are read into.
#[derive(Clone, PartialEq, Eq)]
struct Parts {
    places: Vec<u16>,
    rows: Vec<u8>,
    dependencies: Vec<u16>,
}

impl Comparison {
    /// A table of these values, for a buffer of so many bytes, which has random
    /// bytes in it; parts that are no whole ones follow the values.
    pub fn write(&mut self, values: &Values, room: usize) -> Result<WriteAnswer, Difference> {
        let answer = self.state.write(values, room);
        let mut ours: Vec<u8> = (0..room).map(|_| self.random.word() as u8).collect();
        let mut theirs = ours.clone();
        let expected = match &answer {
            WriteAnswer::Refused { number, row } => {
                Packed::new(Code::Refused, u16::from(*number), *row, 0)
            }
            WriteAnswer::Written(table) => {
                theirs[..table.len()].copy_from_slice(table);
                Packed::new(Code::Written, table.len() as u16, 0, 0)
            }
        };
        let mut places = values.places.concat();
        places.extend((0..self.random.below(4)).map(|_| self.random.word() as u16));
        let mut rows: Vec<u8> = values.rows.iter().flat_map(|row| row_bytes(*row)).collect();
        rows.extend((0..self.random.below(ROW_BYTES)).map(|_| self.random.word() as u8));
        let mut dependencies = values.dependencies.concat();
        dependencies.extend((0..self.random.below(2)).map(|_| self.random.word() as u16));
        let packed = write_in(values.version, &places, &rows, &dependencies, &mut ours);
        let part = if packed != expected {
            format!("{packed:?} instead of {expected:?}")
        } else if let Some(place) = first_difference(&ours, &theirs) {
            format!("{packed:?}, but the buffer differs at {place}")
        } else {
            return Ok(answer);
        };
        Err(Difference(format!("{part}: {room} bytes for {values:?}")))
    }

    /// The rows of a table one by one, and three steps more.
    pub fn step_through(&mut self, table: &[u8]) -> Result<RowsAnswer, Difference> {
        let answer = self.state.step_through(table);
        let ours = match Rows::open(table) {
            Ok(mut rows) => {
                let all = rows.by_ref().map(stramashly::Row::bytes).collect();
                let is_over = (0..3).all(|_| rows.next().is_none());
                is_over.then_some(RowsAnswer::Rows(all))
            }
            Err(refusal) => Some(RowsAnswer::Refused {
                number: refusal.number as u8,
                row: refusal.row,
            }),
        };
        if ours.as_ref() != Some(&answer) {
            let words = format!("{ours:?} instead of {answer:?}");
            return Err(Difference(format!("{words}\nrows {}", hex(table))));
        }
        self.step_anywhere(table, &answer)?;
        self.read_back(table, &answer)?;
        Ok(answer)
    }

    /// A table opened, and its values read into parts of any length, which have
    /// random numbers in them.
    fn read_back(&mut self, table: &[u8], answer: &RowsAnswer) -> Result<(), Difference> {
        let values = match answer {
            RowsAnswer::Rows(_) => Some(Values::of(table)),
            RowsAnswer::Refused { .. } => None,
        };
        let mut ours = self.parts();
        let mut theirs = ours.clone();
        let refused = match answer {
            RowsAnswer::Refused { number, row } => (u16::from(*number), *row),
            RowsAnswer::Rows(_) => (0, 0),
        };
        let refused = Packed::new(Code::Refused, refused.0, refused.1, 0);
        let opened = values.as_ref().map_or(refused, opened);
        let expected = match &values {
            _ if theirs.is_short() => Packed::new(Code::Refused, 11, 0, 0),
            Some(values) => theirs.take(values),
            None => refused,
        };
        let packed = read_in(
            table,
            &mut ours.places,
            &mut ours.rows,
            &mut ours.dependencies,
        );
        let part = if open_in(table) != opened {
            format!("{:?} instead of {opened:?}: open", open_in(table))
        } else if packed != expected {
            format!("{packed:?} instead of {expected:?}: read")
        } else if ours != theirs {
            format!("{packed:?}, but the parts differ: read")
        } else {
            return Ok(());
        };
        Err(Difference(format!("{part} {}", hex(table))))
    }

    /// Parts that are long enough, or one time in four a little too short.
    fn parts(&mut self) -> Parts {
        let mut longer = |most: usize| most + self.random.pick(&[0, 0, 1, 9]);
        let (places, rows) = (longer(READ_PLACES), longer(READ_ROWS));
        let dependencies = longer(READ_DEPENDENCIES);
        let short = self.random.below(12);
        let less = |part: usize, length: usize| if part == short { length - 10 } else { length };
        let mut numbers = |count: usize| -> Vec<u16> {
            let words = (0..count).map(|_| self.random.word());
            words.map(|word| word as u16).collect()
        };
        Parts {
            places: numbers(less(0, places)),
            rows: numbers(less(1, rows)).iter().map(|n| *n as u8).collect(),
            dependencies: numbers(less(2, dependencies)),
        }
    }

    /// Steps at places in any order, with buffers of any length.
    fn step_anywhere(&mut self, table: &[u8], answer: &RowsAnswer) -> Result<(), Difference> {
        for _ in 0..3 {
            let rows = match answer {
                RowsAnswer::Rows(rows) => &rows[..],
                RowsAnswer::Refused { .. } => &[],
            };
            let at = self.random.below(rows.len() + 2) as u16;
            let at = self.random.pick(&[at, at, 65534, 65535]);
            let room = self.random.pick(&[0, 1, 15, 16, 16, 17, 40]);
            let mut ours: Vec<u8> = (0..room).map(|_| self.random.word() as u8).collect();
            let mut theirs = ours.clone();
            let expected = match (answer, rows.get(usize::from(at))) {
                _ if room < ROW_BYTES => Packed::new(Code::Refused, 11, 0, 0),
                (RowsAnswer::Refused { number, row }, _) => {
                    Packed::new(Code::Refused, u16::from(*number), *row, 0)
                }
                (_, Some(row)) => {
                    theirs[..ROW_BYTES].copy_from_slice(row);
                    Packed::new(Code::Row, at + 1, 0, 0)
                }
                (_, None) => Packed::new(Code::End, at, 0, 0),
            };
            let packed = row_in(table, at, &mut ours);
            if packed != expected || ours != theirs {
                let words = format!("{packed:?} instead of {expected:?} at {at}, {room} bytes");
                return Err(Difference(format!("{words}\nrow {}", hex(table))));
            }
        }
        Ok(())
    }
}

impl Parts {
    fn is_short(&self) -> bool {
        self.places.len() < READ_PLACES
            || self.rows.len() < READ_ROWS
            || self.dependencies.len() < READ_DEPENDENCIES
    }

    /// The parts become what they must hold; gives the answer.
    fn take(&mut self, values: &Values) -> Packed {
        let (places, ends) = (values.places.concat(), values.dependencies.concat());
        let rows: Vec<u8> = values.rows.iter().flat_map(|row| row_bytes(*row)).collect();
        self.places[..places.len()].copy_from_slice(&places);
        self.rows[..rows.len()].copy_from_slice(&rows);
        self.dependencies[..ends.len()].copy_from_slice(&ends);
        let a = u16::from(values.version) * 256 + values.places.len() as u16;
        let (b, c) = (values.rows.len() as u16, values.dependencies.len() as u16);
        Packed::new(Code::Read, a, b, c)
    }
}

fn opened(values: &Values) -> Packed {
    let (rows, agents) = (values.rows.len() as u16, values.places.len() as u16);
    Packed::new(Code::Opened, rows, agents, 0)
}
