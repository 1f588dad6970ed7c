//! All races of a table, one after the other, by the proved library: it names the
//! first, and of the table without one of its rows the next.
//!
//! A row may be left out if it is plain, makes nothing available or visible and is
//! named by no dependency: then all other pairs race as they did before. Of a table
//! in which another row races this gives nothing.

use format::{flags, Row, BLANK, INITIAL, ROW_BYTES};
use mend::{first_row, Goal};
use stramashly::{Checker, FillAnswer, Report, ReportAnswer, TableWriter};

/// All races in the order of their rows, each with its lowest byte, as many as the
/// report counts; none where a row races that can't be left out, or there are too
/// many.
pub fn races(table: &[u8], checker: &mut Checker) -> Option<Vec<Goal>> {
    let ReportAnswer::Report(Report { racing, .. }) = checker.report(table) else {
        return None;
    };
    let racing = usize::from(racing);
    if racing > MOST {
        return None;
    }
    let mut part = Part::of(table)?;
    let mut found = Vec::new();
    while found.len() < racing {
        let mut next = part.race(checker)?;
        let row = next?.first;
        // Its pairs, without the others of these one after the other.
        let mut rest = part.clone();
        while let Some(goal) = next.filter(|goal| goal.first == row) {
            found.push(goal);
            if found.len() == racing {
                return Some(found);
            }
            rest.leave_out(goal.second)?;
            next = rest.race(checker)?;
        }
        part.leave_out(row)?;
    }
    Some(found)
}

/// More than these are left to the second implementation, which has them at once.
const MOST: usize = 64;

/// A table without some of its rows.
#[derive(Clone)]
struct Part {
    /// Its bytes up to the rows, and those after them.
    head: Vec<u8>,
    tail: Vec<u8>,
    rows: Vec<Row>,
    /// The rows' numbers in the whole table.
    numbers: Vec<usize>,
    /// Rows that a dependency names.
    depended: Vec<usize>,
}

impl Part {
    /// The whole table, which must be one that a fill admits.
    fn of(table: &[u8]) -> Option<Part> {
        TableWriter::read(table).ok()?;
        let (begin, count) = (first_row(table), usize::from(table[6]));
        let end = begin + ROW_BYTES * count;
        let rows = table[begin..end].chunks_exact(ROW_BYTES);
        let rows = rows.filter_map(|bytes| Some(Row::from_bytes(bytes.try_into().ok()?)));
        let ends = table[end..].get(2..).unwrap_or_default().chunks_exact(2);
        let ends = ends.map(|pair| usize::from(u16::from_be_bytes([pair[0], pair[1]])));
        Some(Part {
            head: table[..begin].to_vec(),
            tail: table[end..].to_vec(),
            rows: rows.collect(),
            numbers: (0..count).collect(),
            depended: ends.collect(),
        })
    }

    /// The first race, by the rows' numbers in the whole table; a fill tells of it
    /// before it asks whether the run could have happened.
    fn race(&self, checker: &mut Checker) -> Option<Option<Goal>> {
        let number = |row: u16| self.numbers[usize::from(row)];
        match checker.fill(&self.bytes()) {
            FillAnswer::Race {
                first,
                second,
                byte,
            } => Some(Some(Goal {
                first: number(first),
                second: number(second),
                byte: byte.into(),
            })),
            FillAnswer::Filled(_) | FillAnswer::None => Some(None),
            _ => None,
        }
    }

    /// Leaves a row out, if it may be.
    fn leave_out(&mut self, number: usize) -> Option<()> {
        let place = self.numbers.iter().position(|other| *other == number)?;
        let row = self.rows[place];
        let made = flags::MAKE_AVAILABLE | flags::MAKE_VISIBLE;
        if !row.is_plain() || row.flags & made != 0 || self.depended.contains(&number) {
            return None;
        }
        self.rows.remove(place);
        self.numbers.remove(place);
        Some(())
    }

    fn bytes(&self) -> Vec<u8> {
        let mut bytes = self.head.clone();
        bytes[6] = self.rows.len() as u8;
        let place = |number: u16| {
            let number = usize::from(number);
            self.numbers.iter().position(|other| *other == number)
        };
        for row in &self.rows {
            let source = match (row.source, place(row.source)) {
                (INITIAL | BLANK, _) => row.source,
                (_, Some(place)) => place as u16,
                // A plain read's source makes no difference to a race; an atomic's,
                // which is a plain write here, gives no order.
                (_, None) if row.is_plain() => BLANK,
                (_, None) => INITIAL,
            };
            bytes.extend(Row { source, ..*row }.bytes());
        }
        let mut tail = self.tail.clone();
        for pair in tail.get_mut(2..).unwrap_or_default().chunks_exact_mut(2) {
            let number = u16::from_be_bytes([pair[0], pair[1]]);
            if let Some(place) = place(number) {
                pair.copy_from_slice(&(place as u16).to_be_bytes());
            }
        }
        bytes.extend(tail);
        let following = bytes.len() as u32 - 4;
        bytes[..4].copy_from_slice(&following.to_be_bytes());
        bytes
    }
}

#[cfg(test)]
mod tests {
    use super::*;
    use mend::Notes;
    use stramashly::{CheckAnswer, OwnedCheckAnswer};
    use tables::{checkable, hosted, Random, Size};

    /// The same races as the second implementation has, in its order.
    #[test]
    fn races_are_those_of_the_second_implementation() {
        let mut random = Random::new(4500);
        let mut checker = Checker::new();
        let size = Size { least: 6, most: 60 };
        let (mut compared, mut several) = (0, 0);
        for number in 0..1200 {
            let table = match number % 4 {
                0 => hosted(&mut random, size),
                _ => checkable(&mut random, size),
            };
            let table = table.bytes();
            if !matches!(checker.check(&table), CheckAnswer::Race { .. }) {
                continue;
            }
            let Some(races) = races(&table, &mut checker) else {
                continue;
            };
            let found = words::findings(&table, &Notes::default(), &mut checker);
            let expected = found.iter().map(|finding| finding.answer.clone());
            let races = races.iter().map(|goal| OwnedCheckAnswer::Race {
                first: goal.first as u16,
                second: goal.second as u16,
                byte: goal.byte as u16,
            });
            let races: Vec<_> = races.collect();
            several += usize::from(races.len() > 1);
            assert_eq!(races, expected.collect::<Vec<_>>());
            compared += 1;
        }
        assert!(compared > 80 && several > 30, "{compared} {several}");
    }
}
