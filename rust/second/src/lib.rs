//! Second, independent race checker for recorded GPU runs.
//!
//! It is written to be ticked off against the rules: every numbered rule has
//! a function of its own, named in its comment, and nothing is made quicker
//! at the price of looking different from its rule.
//!
//! | rules | module |
//! |---|---|
//! | the table, kinds, sources | `table` |
//! | refusals 1 to 11 and 14 to 20, condition by condition | `admission`, `fault` |
//! | M1, M2 | `moments` |
//! | M3, M4, M5 | `synchronization` |
//! | dependencies, domains, the orders that go through them | `system` |
//! | M6, M7 | `happens_before` |
//! | L1 to L3, conflicts and races | `location` |
//! | availability and visibility chains | `chains` |
//! | edges, axioms A and B, canonical cycle | `axioms` |
//! | fillings | `filling` |
//! | derivations, refusal 12 | `derivation` |
//! | counts of conflicting pairs | `report` |
//! | the writer, refusal 13, and a table's rows one by one | `writing` |
//! | tables in two pieces, refusal 40 | `pieces` |
//! | the rules one by one, for those who put an answer into words | `facts` |

mod admission;
mod answer;
mod axioms;
mod chains;
mod derivation;
mod facts;
mod fault;
mod filling;
mod happens_before;
mod judge;
mod location;
mod moments;
mod pieces;
mod report;
mod state;
mod synchronization;
mod system;
pub mod table;
mod writing;

pub use admission::misfits;
pub use answer::{CheckAnswer, FillAnswer, List};
pub use chains::Chains;
pub use derivation::{AcceptsAnswer, Derivation};
pub use fault::{Fault, Misfit};
pub use happens_before::{ACQUIRE_STEP, RELEASE_STEP, SYNCHRONIZES_STEP, SYSTEM_STEP};
pub use moments::{AFTER, AT, BEFORE};
pub use pieces::{joined, Pieces};
pub use report::{Counts, ReportAnswer};
pub use state::State;
pub use system::DomainSteps;
pub use table::{BLANK, INITIAL};
pub use writing::{row_bytes, RowsAnswer, Values, WriteAnswer};

/// Most rows of a table.
pub const MAX_ROWS: usize = 128;
/// Most agents of a table.
pub const MAX_AGENTS: usize = 32;
/// Most dependencies of a table.
pub const MAX_DEPENDENCIES: usize = 64;
/// Most moments: before, at and after for each row.
pub const MAX_MOMENTS: usize = 3 * MAX_ROWS;
/// Most bytes of one access.
pub const MAX_LENGTH: usize = 16;
/// Least length of the lent work area, in 64-bit words.
pub const WORK_WORDS: usize = 8192;
/// Least length of the lent cycle buffer, in 16-bit numbers.
pub const CYCLE_NUMBERS: usize = 256;
/// Least length of the lent source buffer, in 16-bit numbers.
pub const SOURCE_NUMBERS: usize = 128;
/// Most combinations that a fill tries before it gives up.
pub const MAX_FILLINGS: usize = 100_000;
