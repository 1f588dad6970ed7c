//! Safe calls of the proved race checker, which is linked in as
//! libstramashly.a.
//!
//! [`Checker`] owns the buffers that the checker works in:
//!
//! ```
//! use stramashly::{CheckAnswer, Checker};
//!
//! let mut checker = Checker::new();
//! let empty_table = [0, 0, 0, 4, 1, 0, 0, 0];
//! assert_eq!(checker.check(&empty_table), CheckAnswer::RaceFree);
//! assert_eq!(checker.check(&[]).to_string(), "refused 1 0");
//! ```
//!
//! A derivation says why one moment happens before another, and whoever has
//! one can have it read:
//!
//! ```
//! use stramashly::{AcceptsAnswer, Checker, Derivation, DeriveAnswer};
//!
//! // An agent's plain write and its read of that: the rows are moments 1 and 4.
//! let mut table = vec![0, 0, 0, 42, 1, 1, 2, 0, 0, 0, 0, 0, 0, 0];
//! table.extend([1, 0, 0, 0, 0, 0, 0, 4, 0, 0, 0, 0, 255, 255, 0, 0]);
//! table.extend([0, 0, 0, 0, 0, 0, 0, 4, 0, 0, 0, 0, 0, 0, 0, 0]);
//! let mut checker = Checker::new();
//! let word = Derivation::ProgramOrder;
//! assert_eq!(checker.derive(&table, 1, 4), DeriveAnswer::Derivation(word));
//! assert_eq!(Checker::accepts(&table, 1, 4, word), AcceptsAnswer::Accepted);
//! assert_eq!(checker.derive(&table, 4, 1).to_string(), "not-before");
//! ```
//!
//! A report counts the conflicting pairs of rows and says how many of them
//! race; of a table without any there is no share:
//!
//! ```
//! use stramashly::Checker;
//!
//! let empty_table = [0, 0, 0, 4, 1, 0, 0, 0];
//! let mut checker = Checker::new();
//! assert_eq!(checker.report(&empty_table).to_string(), "report 0 0 0 0 no-share");
//! ```
//!
//! Answers borrow the checker's buffers until its next call; `into_owned` gives
//! one that doesn't:
//!
//! ```
//! use stramashly::{Checker, OwnedCheckAnswer};
//!
//! let tables = [vec![0, 0, 0, 4, 1, 0, 0, 0], vec![]];
//! let mut checker = Checker::new();
//! let answers: Vec<OwnedCheckAnswer> = tables
//!     .iter()
//!     .map(|table| checker.check(table).into_owned())
//!     .collect();
//! assert_eq!(answers[1].to_string(), "refused 1 0");
//! ```
//!
//! On a device that reports the feature
//! vulkanMemoryModelAvailabilityVisibilityChains, `Checker::new().with_chains(true)`.
//!
//! A recorder hands its values to a [`TableWriter`], which gives a table that a
//! fill admits; [`TableWriter::read`] has the values of one, and [`Rows`] steps
//! through its rows.
//!
//! A table may come in two pieces, a table and more rows for it, which need not
//! be copied together: [`Checker::check`] and its like take either. The answer
//! is that of the joined table; [`row_of_pieces`] finds a row of either.
//!
//! ```
//! use stramashly::{row_of_pieces, Checker};
//!
//! let prologue = [0, 0, 0, 10, 1, 1, 0, 0, 0, 0, 0, 0, 0, 0];
//! let write = [1, 0, 0, 0, 0, 0, 0, 4, 0, 0, 0, 0, 255, 255, 0, 0];
//! let pieces = [&prologue[..], &write];
//! let mut checker = Checker::new();
//! assert_eq!(checker.check(pieces).to_string(), "race-free");
//! assert_eq!(row_of_pieces(pieces, 0), Some(&write[..]));
//! assert_eq!(row_of_pieces(pieces, 1), None);
//! assert_eq!(checker.check([&prologue[..], &write[1..]]).to_string(), "refused 40 0");
//! ```
//!
//! [`check_in`], [`fill_in`], [`derive_in`] and [`report_in`] take lent buffers
//! instead, of any length, and give the packed answer as it comes, and so do
//! [`write_in`], [`open_in`], [`row_in`] and [`accepts_in`].

#![deny(missing_docs)]

mod answer;
mod checker;
mod derivation;
mod engine;
mod refusal;
mod report;
mod rows;
mod values;
mod writer;

pub use answer::{CheckAnswer, CheckAnswerOf, Code, OwnedCheckAnswer, Packed};
pub use answer::{FillAnswer, FillAnswerOf, OwnedFillAnswer};
pub use checker::Checker;
pub use derivation::{AcceptsAnswer, Derivation, DerivationOf, OwnedDerivation};
pub use derivation::{DeriveAnswer, DeriveAnswerOf, OwnedDeriveAnswer};
pub use engine::{
    accepts_in, check_by_flags, check_in, derive_in, fill_by_flags, fill_in, open_in, read_in,
    report_in, row_in, row_of_pieces, write_in, Pieces,
};
pub use format::{Row, BLANK, INITIAL};
pub use format::{MAX_AGENTS, MAX_DEPENDENCIES, MAX_ROWS, MAX_TABLE_BYTES, ROW_BYTES};
pub use refusal::REFUSALS;
pub use report::{OwnedReportAnswer, Report, ReportAnswer, ReportAnswerOf, Share};
pub use rows::Rows;
pub use values::{AgentKind, Class, Classes, Flags, Kind, Order, Scope, UnknownCode};
pub use writer::{Refusal, TableWriter};

/// The version of this crate, and of the library and header that it is released with.
pub const VERSION: &str = env!("CARGO_PKG_VERSION");

/// Least length of the lent work area, in 64-bit words.
pub const WORK_WORDS: usize = 8192;
/// Least length of the lent cycle buffer, in 16-bit numbers.
pub const CYCLE_NUMBERS: usize = 256;
/// Where a cycle's edge numbers begin in the cycle buffer.
pub const CYCLE_EDGES: usize = 128;
/// Least length of the lent source buffer, in 16-bit numbers.
pub const SOURCE_NUMBERS: usize = 128;
/// Least length of the lent chain buffer, in 16-bit numbers: most steps of a
/// derivation.
pub const CHAIN_NUMBERS: usize = 383;
/// Least lengths of the lent parts of [`read_in`]: numbers of the places.
pub const READ_PLACES: usize = 4 * MAX_AGENTS;
/// Bytes of the rows.
pub const READ_ROWS: usize = ROW_BYTES * MAX_ROWS;
/// Numbers of the dependencies.
pub const READ_DEPENDENCIES: usize = 2 * MAX_DEPENDENCIES;
/// Stands for the word program order in the place of a class set.
pub const PROGRAM_ORDER: u8 = 16;
/// A step is so many times its case, plus the moment that it reaches.
pub const STEP_CASE: u16 = 512;
