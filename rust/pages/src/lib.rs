//! Evaluates the definition pages, `crates/*/specs/*.antt`, as they stand.
//!
//! A page is taken apart into declarations; a definition is read when it is
//! first called, so that proofs are passed over. Known without a page are the
//! words of the kit's library and, for speed, some of crate `finite`
//! (`native`); a test compares these with their own definitions.

mod eval;
mod native;
mod page;
mod parse;
mod program;

pub use eval::{Evaluator, Found, Value};
pub use native::{library, OF_FINITE};
pub use page::{words, Definition, Word};
pub use parse::{Clause, Expr};
pub use program::{Program, Ready};
