//! Compares the definition pages with the second implementation: `pages`
//! evaluates the pages as they stand, `second` was written from the papers
//! alone. Each question is a call of a function that C links, and what is
//! compared is its answer and all that every lent buffer holds afterwards.
//!
//! The definitions that are asked for by name stand in `question` alone.

mod choice;
mod contract;
mod corpus;
mod edges;
mod equal;
mod expected;
mod handshake;
mod mutants;
mod question;
mod telling;
mod trial;
mod values;
mod watch;

pub use corpus::{case, fixed, Case};

pub use equal::equal;
pub use mutants::{mutants, Mutant};
pub use question::{Argument, Question, Readers, Told};
pub use trial::Trial;
pub use values::{full, numbers, told};

use std::path::PathBuf;
use std::thread;

/// The folder of the crates whose pages are read.
pub fn crates() -> PathBuf {
    PathBuf::from(env!("CARGO_MANIFEST_DIR")).join("../../crates")
}

/// Definitions call each other deeply: runs it where there is room.
pub fn with_room<T: Send + 'static>(run: impl FnOnce() -> T + Send + 'static) -> T {
    let thread = thread::Builder::new().stack_size(1 << 29).spawn(run);
    match thread.expect("a thread").join() {
        Ok(value) => value,
        Err(panic) => std::panic::resume_unwind(panic),
    }
}
