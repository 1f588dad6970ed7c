//! Fillings: sources put in the place of a table's blanks, and tried out.

use crate::answer::{FillAnswer, List};
use crate::state::State;
use crate::table::{BLANK, INITIAL};
use crate::{MAX_FILLINGS, MAX_ROWS};

impl State {
    /// Tries every filling that is left; the table has no race.
    pub(crate) fn try_fillings(&mut self) -> FillAnswer {
        let mut blanks = [0; MAX_ROWS];
        let blank_count = self.find_blanks(&mut blanks);
        let blanks = &blanks[..blank_count];
        self.find_candidates(blanks);
        let Some(combinations) = self.combinations(blanks) else {
            return FillAnswer::TooMany;
        };
        let mut answer = FillAnswer::None;
        for combination in 0..combinations {
            self.put_combination(blanks, combination);
            if self.consistent() {
                self.fillings_found += 1;
                answer = FillAnswer::Filled(self.sources());
            }
        }
        // A race-free table orders every writer that overlaps a plain read
        // with it, and the writers among themselves.
        debug_assert!(self.fillings_found <= 1, "two consistent fillings");
        answer
    }

    /// The rows with a blank, ascending; gives their count.
    fn find_blanks(&self, blanks: &mut [usize; MAX_ROWS]) -> usize {
        let mut count = 0;
        for row in 0..self.row_count {
            if self.rows[row].source == BLANK {
                blanks[count] = row;
                count += 1;
            }
        }
        count
    }

    /// The candidates of each blank: sources that are well formed and, with
    /// every other blank left out, consistent. Leaving out the others is
    /// sound: filling them only adds edges to A and readers to B, so what is
    /// broken already stays broken.
    fn find_candidates(&mut self, blanks: &[usize]) {
        for &blank in blanks {
            self.candidate_counts[blank] = 0;
            for row in 0..self.row_count {
                self.add_candidate(blank, row as u16);
            }
            self.add_candidate(blank, INITIAL);
        }
    }

    fn add_candidate(&mut self, blank: usize, source: u16) {
        if self.unfit_source(blank, source).is_some() {
            return;
        }
        self.rows[blank].source = source;
        if self.consistent() {
            self.candidates[blank][self.candidate_counts[blank]] = source;
            self.candidate_counts[blank] += 1;
        }
        self.rows[blank].source = BLANK;
    }

    /// How many combinations of candidates there are, unless too many.
    fn combinations(&self, blanks: &[usize]) -> Option<usize> {
        if blanks
            .iter()
            .any(|blank| self.candidate_counts[*blank] == 0)
        {
            return Some(0);
        }
        blanks.iter().try_fold(1, |product: usize, blank| {
            let product = product * self.candidate_counts[*blank];
            (product <= MAX_FILLINGS).then_some(product)
        })
    }

    /// Puts the numbered combination in: one digit for each blank, in the
    /// base of its count of candidates.
    fn put_combination(&mut self, blanks: &[usize], combination: usize) {
        let mut rest = combination;
        for &blank in blanks {
            let count = self.candidate_counts[blank];
            self.rows[blank].source = self.candidates[blank][rest % count];
            rest /= count;
        }
    }

    /// Consistent: axioms A and B hold. A blank has no edges.
    fn consistent(&mut self) -> bool {
        self.axiom_a_broken_by().is_none() && self.axiom_b_broken_by().is_none()
    }

    /// One source for each row, 65535 where a row doesn't read.
    fn sources(&self) -> List {
        let mut sources = List::new();
        for row in &self.rows[..self.row_count] {
            sources.push(if row.reads() { row.source } else { INITIAL });
        }
        sources
    }
}
