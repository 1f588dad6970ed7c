//! What else is asked of a table: its values written, its rows stepped through,
//! and the table in two pieces.

use crate::{Comparison, Difference, Tally};
use second::{Chains, Values};
use stramashly::{MAX_TABLE_BYTES, ROW_BYTES};
use tables::Random;

/// Where the rows of a table begin and end, by its first bytes.
fn rows_of(bytes: &[u8]) -> (usize, usize) {
    let place = if bytes[4] == 3 { 8 } else { 6 };
    let begin = 8 + place * usize::from(bytes[5]);
    (begin, begin + ROW_BYTES * usize::from(bytes[6]))
}

/// Whether a table's values can be read, however damaged: its header fits.
pub fn readable(table: &[u8]) -> bool {
    if table.len() < 8 || !(1..=3).contains(&table[4]) {
        return false;
    }
    let (_, end) = rows_of(table);
    if table[4] < 3 {
        return table.len() == end;
    }
    let count = table.get(end..end + 2);
    count.is_some_and(|count| {
        let count = u16::from_be_bytes([count[0], count[1]]);
        table.len() == end + 2 + 4 * usize::from(count)
    })
}

/// The pieces of a table whose first piece keeps so many rows; none of bytes
/// that have no such rows.
pub fn cut(bytes: &[u8], rows: usize) -> Option<[Vec<u8>; 2]> {
    if bytes.len() < 8 || rows > usize::from(bytes[6]) || rows_of(bytes).1 > bytes.len() {
        return None;
    }
    let (begin, end) = rows_of(bytes);
    let at = begin + ROW_BYTES * rows;
    let mut first = [&bytes[..at], &bytes[end..]].concat();
    let following = (first.len() - 4) as u32;
    first[..4].copy_from_slice(&following.to_be_bytes());
    first[6] = rows as u8;
    Some([first, bytes[at..end].to_vec()])
}

impl Comparison {
    /// A table's rows one by one, and its values written, for a buffer that may
    /// be too short.
    pub fn write_and_step(
        &mut self,
        random: &mut Random,
        table: &[u8],
        tally: &mut Tally,
    ) -> Result<(), Difference> {
        tally.rows(&self.step_through(table)?);
        if readable(table) {
            let exact = table.len();
            let room = random.pick(&[MAX_TABLE_BYTES, exact, exact + 1, exact - 1, 0]);
            tally.write(&self.write(&Values::of(table), room)?);
        }
        Ok(())
    }

    /// A table cut between two rows, or followed by a second piece that may be
    /// no rows: all that is asked of two pieces.
    pub fn cut_anywhere(
        &mut self,
        random: &mut Random,
        chains: Chains,
        table: &[u8],
        tally: &mut Tally,
    ) -> Result<(), Difference> {
        let rows = table.get(6).map_or(0, |rows| usize::from(*rows));
        let [first, second] = match cut(table, random.below(rows + 1)) {
            Some(pieces) if random.percent(90) => pieces,
            _ => [table.to_vec(), vec![0; random.pick(&[0, 1, 16, 24, 2048])]],
        };
        let pieces = [&first[..], &second];
        let answers = self.pieces(chains, pieces)?;
        tally.check(&answers.check);
        tally.fill(&answers.fill);
        let moments = [0, 1].map(|_| random.below(3 * rows + 2) as u16);
        self.derivation_of_pieces(pieces, moments)?;
        Ok(())
    }
}
