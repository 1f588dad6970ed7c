//! Tables and answers in words: `show`, `explain` and `why` of the command line.
//!
//! The answer itself is the proved checker's, and so is each derivation.
//! Everything else said about it, the decoding of the table and its relations,
//! comes from `second`, which is not proved; where the two disagree nothing is
//! explained.
//!
//! | what | module |
//! |---|---|
//! | the words for codes, rows and tables | `names`, `describe`, `show` |
//! | sentences with the names and places of a table's text | `naming` |
//! | why rows are ordered | `told`, `account`, `chain`, `derivation`, `why` |
//! | why they aren't | `nearest`, `gap`, `carriage` |
//! | the words for a change that orders them, and for a shader | `reason`, `shader` |
//! | the answers one by one | `race`, `race_free`, `inconsistent`, `refusal` |
//! | what is wrong with a refused table, and with its blanks | `fault`, `unfit`, `blank` |
//! | answers one finding after the other | `findings` |
//! | answers in sentences | `explain`, `headline` |

mod account;
mod blank;
mod carriage;
mod chain;
mod derivation;
mod describe;
mod explain;
mod fault;
mod findings;
mod gap;
mod headline;
mod inconsistent;
pub mod names;
mod naming;
mod nearest;
mod race;
pub mod race_free;
mod reason;
mod refusal;
mod shader;
pub mod show;
mod told;
mod unfit;
mod why;

pub use account::Ordered;
pub use derivation::{at, derivation_lines, derived_lines, meeting, moment_words, step_parts};
pub use describe::Describe;
pub use explain::{explain, explain_noted, shown, Explanation, Shown};
pub use fault::fault_words;
pub use findings::{findings, race_findings, Finding};
pub use headline::headline;
pub use inconsistent::edge_name;
pub use names::{CLASSES, KINDS, ORDERS, SCOPES, SORTS};
pub use naming::{mentioned, named};
pub use nearest::Near;
pub use race::Advice;
pub use refusal::{is_of_a_row, lines as refusal_lines, refusal};
pub use shader::{glsl, spirv};
pub use show::{show, show_noted};
pub use told::Checked;
pub use unfit::unfit_words;
pub use why::why;

/// A table in two pieces as one, for words and pictures of it.
pub use second::joined;
