//! The search for changes that end a race.
//!
//! | what | module |
//! |---|---|
//! | a table's rows, and what its text says besides | `run`, `notes` |
//! | who answers | `judge` |
//! | its relations, a race, and the way of a write between domains | `facts`, `way` |
//! | the rows that a race depends on | `reduction` |
//! | rows that are one instruction, and what it may have | `instruction`, `strength` |
//! | changes, and those that strengthen nothing | `change`, `catalogue`, `ranks` |
//! | edits, new rows, new dependencies | `edit`, `insertion`, `dependency`, `steps` |
//! | new rows that order two rows | `remedy`, `gathering`, `domains` |
//! | the search, and what comes of a change | `search`, `cure` |

mod catalogue;
mod change;
mod cure;
mod dependency;
mod domains;
mod edit;
#[cfg(test)]
mod exhaustive;
mod facts;
mod gathering;
mod insertion;
mod instruction;
mod judge;
mod notes;
mod ranks;
mod reduction;
mod remedy;
mod run;
mod search;
mod steps;
mod strength;
mod way;

pub use change::{Change, Reason};
pub use cure::{Cure, Order, Outcome};
pub use dependency::Dependency;
pub use edit::{edited, Edit, Field};
pub use facts::{at, Facts, Goal, Relations};
pub use insertion::Insertion;
pub use judge::{of_second, Judge};
pub use notes::{Notes, Place, RowNote};
pub use reduction::{is_step, reached};
pub use run::{dependency_count, first_row, Run, LAST_VERSION};
pub use search::{search, Search};
pub use steps::{parse_steps, ranges, stepped, steps_text, Step};
pub use way::{kinds, Stop};
