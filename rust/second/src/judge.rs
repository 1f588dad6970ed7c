//! The two entry points: a table is taken in, its relations are worked out,
//! and the first thing that is wrong with it is the answer.

use crate::admission::{self, Purpose, Refusal};
use crate::answer::{CheckAnswer, FillAnswer};
use crate::chains::Chains;
use crate::state::State;
use crate::table::{agent_places, agent_sort, row_of};
use crate::{CYCLE_NUMBERS, SOURCE_NUMBERS, WORK_WORDS};

impl State {
    /// Checks a table with chains off. The lent buffers are given by their
    /// lengths only.
    pub fn check(&mut self, table: &[u8], work_words: usize, cycle_numbers: usize) -> CheckAnswer {
        self.check_with(Chains::Off, table, work_words, cycle_numbers)
    }

    /// Checks a table.
    pub fn check_with(
        &mut self,
        chains: Chains,
        table: &[u8],
        work_words: usize,
        cycle_numbers: usize,
    ) -> CheckAnswer {
        self.chains = chains;
        self.row_count = 0;
        if admission::refusal_11(work_words, WORK_WORDS, cycle_numbers, CYCLE_NUMBERS) {
            return CheckAnswer::Refused { number: 11, row: 0 };
        }
        if let Err(Refusal { number, row }) = self.admit(table, Purpose::Check) {
            return CheckAnswer::Refused { number, row };
        }
        self.relate();
        if let Some((rows, edges)) = self.axiom_a_broken_by() {
            return CheckAnswer::Cycle { rows, edges };
        }
        if let Some((reader, writer, byte)) = self.axiom_b_broken_by() {
            return CheckAnswer::Overwritten {
                reader,
                writer,
                byte,
            };
        }
        if let Some((first, second, byte)) = self.first_race() {
            return CheckAnswer::Race {
                first,
                second,
                byte,
            };
        }
        CheckAnswer::RaceFree
    }

    /// Fills a table's blanks with chains off. The lent buffers are given by
    /// their lengths only.
    pub fn fill(&mut self, table: &[u8], work_words: usize, source_numbers: usize) -> FillAnswer {
        self.fill_with(Chains::Off, table, work_words, source_numbers)
    }

    /// Fills a table's blanks.
    pub fn fill_with(
        &mut self,
        chains: Chains,
        table: &[u8],
        work_words: usize,
        source_numbers: usize,
    ) -> FillAnswer {
        self.chains = chains;
        self.row_count = 0;
        self.fillings_found = 0;
        if admission::refusal_11(work_words, WORK_WORDS, source_numbers, SOURCE_NUMBERS) {
            return FillAnswer::Refused { number: 11, row: 0 };
        }
        if let Err(Refusal { number, row }) = self.admit(table, Purpose::Fill) {
            return FillAnswer::Refused { number, row };
        }
        self.relate();
        if let Some((first, second, byte)) = self.first_race() {
            return FillAnswer::Race {
                first,
                second,
                byte,
            };
        }
        self.try_fillings()
    }

    /// Takes the table in, or says why not. A refused table leaves no rows,
    /// so that every relation is empty after it.
    pub(crate) fn admit(&mut self, table: &[u8], purpose: Purpose) -> Result<(), Refusal> {
        let (agent_count, row_count) = admission::door(table)?;
        self.take_rows_in(table, agent_count, row_count);
        let refusal = self
            .take_dependencies_in(table, agent_count)
            .or_else(|| self.refusal_by_row_alone(agent_count))
            .or_else(|| self.refusal_among_rows(purpose));
        if let Some(refusal) = refusal {
            self.row_count = 0;
            return Err(refusal);
        }
        Ok(())
    }

    /// Takes in the agents and rows of a table that refusals 1 to 4 have passed.
    pub(crate) fn take_rows_in(&mut self, table: &[u8], agent_count: usize, row_count: usize) {
        self.version = table[4];
        for agent in 0..agent_count {
            self.agents[agent] = agent_places(table, agent);
            self.sorts[agent] = agent_sort(table, agent);
        }
        for row in 0..row_count {
            self.rows[row] = row_of(table, agent_count, row);
        }
        self.row_count = row_count;
    }

    /// Works out every relation up to location order; none of them reads a
    /// plain source, so they stand for every filling of the table too.
    pub(crate) fn relate(&mut self) {
        self.relate_moments();
        self.relate_mutually_ordered();
        self.relate_synchronizes_with();
        self.relate_system_synchronizes();
        self.relate_happens_before();
        self.relate_chains();
        self.relate_location_order();
    }
}
