//! The reusable state of the checker.

use crate::chains::Chains;
use crate::table::{Row, SHADER};
use crate::{MAX_AGENTS, MAX_DEPENDENCIES, MAX_LENGTH, MAX_MOMENTS, MAX_ROWS};

const ROW_PAIRS: usize = MAX_ROWS * MAX_ROWS;
const MOMENT_PAIRS: usize = MAX_MOMENTS * MAX_MOMENTS;

/// The admitted table and the relations worked out from it. Its arrays are
/// made once and serve every table after that.
pub struct State {
    pub(crate) chains: Chains,
    pub(crate) version: u8,
    pub(crate) row_count: usize,
    pub(crate) agents: [[u16; 3]; MAX_AGENTS],
    /// Each agent's sort.
    pub(crate) sorts: [u16; MAX_AGENTS],
    /// Pairs of rows of which the first system-synchronizes-with the second.
    pub(crate) dependencies: Vec<[u16; 2]>,
    pub(crate) rows: [Row; MAX_ROWS],
    pub(crate) moment_exists: [bool; MAX_MOMENTS],
    pub(crate) mutually_ordered: Box<[bool; ROW_PAIRS]>,
    pub(crate) synchronizes_with: Box<[bool; ROW_PAIRS]>,
    /// Whether a dependency joins two rows.
    pub(crate) depends: Box<[bool; ROW_PAIRS]>,
    /// Whether one or more dependencies lead from a row to a row.
    pub(crate) system_synchronizes: Box<[bool; ROW_PAIRS]>,
    /// Inter-thread order of the class set at hand.
    pub(crate) inter_thread: Box<[bool; MOMENT_PAIRS]>,
    pub(crate) happens_before: Box<[bool; MOMENT_PAIRS]>,
    /// Whether an availability chain leads from a moment to a moment, and
    /// whether a visibility chain does.
    pub(crate) availability_chains: Box<[bool; MOMENT_PAIRS]>,
    pub(crate) visibility_chains: Box<[bool; MOMENT_PAIRS]>,
    /// By pair of rows, then by the byte's distance from the first row's start.
    pub(crate) location_order: Box<[bool; ROW_PAIRS * MAX_LENGTH]>,
    /// Lowest edge number from a row to a row, 0 where there is no edge.
    pub(crate) edges: Box<[u8; ROW_PAIRS]>,
    /// Whether a row can be reached from a row by one or more edges.
    pub(crate) reaches: Box<[bool; ROW_PAIRS]>,
    /// Sources that a blank may take, by row.
    pub(crate) candidates: Box<[[u16; MAX_ROWS + 1]; MAX_ROWS]>,
    pub(crate) candidate_counts: [usize; MAX_ROWS],
    pub(crate) fillings_found: usize,
}

impl Default for State {
    fn default() -> State {
        State::new()
    }
}

impl State {
    pub fn new() -> State {
        State {
            chains: Chains::Off,
            version: 1,
            row_count: 0,
            agents: [[0; 3]; MAX_AGENTS],
            sorts: [SHADER; MAX_AGENTS],
            dependencies: Vec::with_capacity(MAX_DEPENDENCIES),
            rows: [Row::default(); MAX_ROWS],
            moment_exists: [false; MAX_MOMENTS],
            mutually_ordered: Box::new([false; ROW_PAIRS]),
            synchronizes_with: Box::new([false; ROW_PAIRS]),
            depends: Box::new([false; ROW_PAIRS]),
            system_synchronizes: Box::new([false; ROW_PAIRS]),
            inter_thread: Box::new([false; MOMENT_PAIRS]),
            happens_before: Box::new([false; MOMENT_PAIRS]),
            availability_chains: Box::new([false; MOMENT_PAIRS]),
            visibility_chains: Box::new([false; MOMENT_PAIRS]),
            location_order: Box::new([false; ROW_PAIRS * MAX_LENGTH]),
            edges: Box::new([0; ROW_PAIRS]),
            reaches: Box::new([false; ROW_PAIRS]),
            candidates: Box::new([[0; MAX_ROWS + 1]; MAX_ROWS]),
            candidate_counts: [0; MAX_ROWS],
            fillings_found: 0,
        }
    }

    /// How many consistent fillings the last fill found: never more than one.
    pub fn fillings_found(&self) -> usize {
        self.fillings_found
    }

    /// Rows of the last admitted table, 0 after a refusal.
    pub fn row_count(&self) -> usize {
        self.row_count
    }

    pub(crate) fn moment_count(&self) -> usize {
        3 * self.row_count
    }
}

/// Place of a pair of rows in a flat array.
pub(crate) fn row_pair(first: usize, second: usize) -> usize {
    first * MAX_ROWS + second
}

/// Place of a pair of moments in a flat array.
pub(crate) fn moment_pair(first: usize, second: usize) -> usize {
    first * MAX_MOMENTS + second
}
