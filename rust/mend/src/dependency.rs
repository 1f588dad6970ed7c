//! Dependencies put into a table.

use crate::edit::whole_number;
use crate::insertion::row_count;
use crate::run::{dependency_count, past_rows};
use second::table::{COUNT_BYTES, DEPENDENCY_BYTES};
use second::MAX_DEPENDENCIES;
use std::fmt;
use std::str::FromStr;

/// A dependency put in after the others, written `depend 1 4`: row 4 depends
/// on row 1, which system-synchronizes-with it.
#[derive(Clone, Copy, Debug, PartialEq, Eq)]
pub struct Dependency {
    pub first: usize,
    pub second: usize,
}

impl Dependency {
    /// Puts the dependency in; the reason if the table has no room for it, no
    /// such rows or no dependencies at all.
    pub fn apply(self, table: &mut Vec<u8>) -> Result<(), String> {
        let rows = row_count(table)?;
        if let Some(row) = [self.first, self.second].iter().find(|row| **row >= rows) {
            return Err(format!("there is no row {row}"));
        }
        let Some(count) = dependency_count(table) else {
            return Err(format!("version {} has no dependencies", table[4]));
        };
        if count >= MAX_DEPENDENCIES {
            return Err(format!(
                "a table has at most {MAX_DEPENDENCIES} dependencies"
            ));
        }
        let at = past_rows(table);
        let counted = (count as u16 + 1).to_be_bytes();
        table[at..at + COUNT_BYTES].copy_from_slice(&counted);
        for row in [self.first, self.second] {
            table.extend((row as u16).to_be_bytes());
        }
        count_changed(table, DEPENDENCY_BYTES);
        Ok(())
    }
}

/// Counts more bytes in the header.
pub fn count_changed(table: &mut [u8], more: usize) {
    let count = u32::from_be_bytes([table[0], table[1], table[2], table[3]]);
    let count = count.wrapping_add(more as u32);
    table[..4].copy_from_slice(&count.to_be_bytes());
}

impl fmt::Display for Dependency {
    fn fmt(&self, formatter: &mut fmt::Formatter) -> fmt::Result {
        write!(formatter, "depend {} {}", self.first, self.second)
    }
}

impl FromStr for Dependency {
    type Err = String;

    fn from_str(text: &str) -> Result<Dependency, String> {
        let bad = || format!("no dependency: {text:?}");
        let words: Vec<&str> = text.split_whitespace().collect();
        let ["depend", first, second] = words[..] else {
            return Err(bad());
        };
        Ok(Dependency {
            first: whole_number(first, usize::MAX).ok_or_else(bad)?,
            second: whole_number(second, usize::MAX).ok_or_else(bad)?,
        })
    }
}
