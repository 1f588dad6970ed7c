//! Mutants that are the same definition, and why: `equal.txt`.

use crate::{full, Mutant};
use std::collections::HashSet;

/// A reason begins with `#`; the mutants below it have it.
const EQUAL: &str = include_str!("../equal.txt");

/// The mutants that are listed.
pub fn equal() -> HashSet<&'static str> {
    let lines = EQUAL.lines().map(str::trim);
    lines
        .filter(|line| !line.is_empty() && !line.starts_with('#'))
        .collect()
}

impl Mutant {
    /// As `equal.txt` lists it.
    pub fn line(&self) -> String {
        format!("{}: {}", full(self.definition), self.change)
    }
}
