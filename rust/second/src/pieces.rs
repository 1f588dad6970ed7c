//! A table in two pieces: an ordinary table, and rows to be added after its
//! rows. The answer is that of the joined table.

use crate::admission::{self, Purpose, Refusal};
use crate::answer::{CheckAnswer, FillAnswer};
use crate::chains::Chains;
use crate::derivation::{AcceptsAnswer, Derivation};
use crate::report::ReportAnswer;
use crate::state::State;
use crate::table::{agent_bytes, HEADER_BYTES, ROW_BYTES};
use crate::{CYCLE_NUMBERS, MAX_ROWS, SOURCE_NUMBERS, WORK_WORDS};

/// The two pieces, in order.
pub type Pieces<'a> = [&'a [u8]; 2];

/// The joined table, or the number of the pair's own refusal, whose row is 0:
/// 1 to 4 of the first piece, then 40, then 3 of both.
pub fn joined([first, second]: Pieces) -> Result<Vec<u8>, u8> {
    let number = |refusal: Refusal| refusal.number;
    let (agents, rows) = admission::door(first).map_err(number)?;
    // Refusal 40: the second piece's size isn't a multiple of 16.
    if !second.len().is_multiple_of(ROW_BYTES) {
        return Err(40);
    }
    // Refusal 3: rows of both together are over the limit.
    let rows_of_both = rows + second.len() / ROW_BYTES;
    if rows_of_both > MAX_ROWS {
        return Err(3);
    }
    let rows_end = HEADER_BYTES + agent_bytes(first[4]) * agents + ROW_BYTES * rows;
    let (front, dependencies) = first.split_at(rows_end);
    let mut table = [front, second, dependencies].concat();
    let following = (table.len() - 4) as u32;
    table[..4].copy_from_slice(&following.to_be_bytes());
    table[6] = rows_of_both as u8;
    Ok(table)
}

impl State {
    /// The joined table, or the number of the refusal: 11 of buffers that are too
    /// short, else the pair's own.
    fn join(&mut self, pieces: Pieces, is_short: bool) -> Result<Vec<u8>, u8> {
        self.row_count = 0;
        if is_short {
            return Err(11);
        }
        joined(pieces)
    }

    /// Checks a table in two pieces.
    pub fn check_pieces(
        &mut self,
        chains: Chains,
        pieces: Pieces,
        work: usize,
        cycle: usize,
    ) -> CheckAnswer {
        let is_short = admission::refusal_11(work, WORK_WORDS, cycle, CYCLE_NUMBERS);
        match self.join(pieces, is_short) {
            Ok(table) => self.check_with(chains, &table, work, cycle),
            Err(number) => CheckAnswer::Refused { number, row: 0 },
        }
    }

    /// Fills the blanks of a table in two pieces.
    pub fn fill_pieces(
        &mut self,
        chains: Chains,
        pieces: Pieces,
        work: usize,
        sources: usize,
    ) -> FillAnswer {
        let is_short = admission::refusal_11(work, WORK_WORDS, sources, SOURCE_NUMBERS);
        match self.join(pieces, is_short) {
            Ok(table) => self.fill_with(chains, &table, work, sources),
            Err(number) => FillAnswer::Refused { number, row: 0 },
        }
    }

    /// Counts the conflicting pairs of a table in two pieces.
    pub fn report_pieces(
        &mut self,
        chains: Chains,
        pieces: Pieces,
        work: usize,
        cycle: usize,
    ) -> ReportAnswer {
        let is_short = admission::refusal_11(work, WORK_WORDS, cycle, CYCLE_NUMBERS);
        match self.join(pieces, is_short) {
            Ok(table) => self.report_with(chains, &table, work, cycle),
            Err(number) => ReportAnswer::Check(CheckAnswer::Refused { number, row: 0 }),
        }
    }

    /// Reads a derivation from one moment of a table in two pieces to another.
    pub fn accepts_pieces(
        &mut self,
        pieces: Pieces,
        first: u16,
        second: u16,
        derivation: Derivation,
    ) -> AcceptsAnswer {
        match joined(pieces) {
            Ok(table) => self.accepts(&table, first, second, derivation),
            Err(number) => AcceptsAnswer::Refused { number, row: 0 },
        }
    }

    /// Row n's sixteen bytes, from whichever piece holds it.
    pub fn row_of_pieces<'a>(&mut self, pieces: Pieces<'a>, row: usize) -> Option<&'a [u8]> {
        self.rows_of_pieces(pieces).get(row).copied()
    }

    /// Every row's sixteen bytes. Pairs refused before 5 hold no rows.
    pub fn rows_of_pieces<'a>(&mut self, pieces: Pieces<'a>) -> Vec<&'a [u8]> {
        let Ok(table) = joined(pieces) else {
            return Vec::new();
        };
        let refusal = self.admit(&table, Purpose::Fill).err();
        if refusal.is_some_and(|refusal| matches!(refusal.number, 16..=18)) {
            return Vec::new();
        }
        let [first, second] = pieces;
        let begin = HEADER_BYTES + agent_bytes(first[4]) * usize::from(first[5]);
        let rows = usize::from(first[6]);
        let of_first = first[begin..][..ROW_BYTES * rows].chunks(ROW_BYTES);
        of_first.chain(second.chunks(ROW_BYTES)).collect()
    }
}
