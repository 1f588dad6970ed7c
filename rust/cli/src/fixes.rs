//! Small changes that end the race that a check shows: flags and scopes of the
//! rows about it, each change tried by the proved library.

use format::{flags, order, Row, ROW_BYTES};
use mend::first_row;
use stramashly::{CheckAnswer, Checker};

/// One byte of one row with another number.
#[derive(Clone, Copy, Debug, PartialEq, Eq)]
pub struct Change {
    pub row: usize,
    pub field: Field,
    pub value: u8,
}

#[derive(Clone, Copy, Debug, PartialEq, Eq)]
pub enum Field {
    Scope,
    Flags,
}

impl Field {
    /// Its place in a row, and its name in an edit.
    fn place(self) -> (usize, &'static str) {
        match self {
            Field::Scope => (3, "scope"),
            Field::Flags => (5, "flags"),
        }
    }
}

/// Changes that belong together.
#[derive(Clone, Debug, PartialEq, Eq)]
pub struct Fix {
    pub changes: Vec<Change>,
    /// Whether nothing races after it.
    pub is_whole: bool,
}

impl Fix {
    /// As `edit` takes it.
    pub fn edit(&self) -> String {
        let steps = self.changes.iter().map(|change| {
            let (row, value) = (change.row, change.value);
            format!("row {row} {} {value}", change.field.place().1)
        });
        steps.collect::<Vec<_>>().join("; ")
    }

    /// Where each changed byte stands in a table, and what it becomes.
    pub fn bytes(&self, table: &[u8]) -> Vec<(usize, u8)> {
        let begin = first_row(table);
        let changes = self.changes.iter();
        changes
            .map(|change| {
                let at = begin + ROW_BYTES * change.row + change.field.place().0;
                (at, change.value)
            })
            .collect()
    }
}

/// So many changes are tried.
const TRIED: usize = 8;
/// So many are told.
const TOLD: usize = 3;

/// Changes after which the pair no longer races, those that leave no race first.
pub fn fixes(table: &[u8], (first, second): (usize, usize), checker: &mut Checker) -> Vec<Fix> {
    let mut found = Vec::new();
    for changes in candidates(table, first, second).into_iter().take(TRIED) {
        let mut fix = Fix {
            changes,
            is_whole: false,
        };
        let mut edited = table.to_vec();
        for (at, value) in fix.bytes(table) {
            edited[at] = value;
        }
        let ends_it = match checker.check(&edited) {
            CheckAnswer::RaceFree => {
                fix.is_whole = true;
                true
            }
            // Races are told in the order of their rows.
            CheckAnswer::Race {
                first: x,
                second: y,
                ..
            } => (usize::from(x), usize::from(y)) > (first, second),
            _ => false,
        };
        let is_enough = ends_it && fix.is_whole;
        if ends_it {
            found.push(fix);
        }
        // More changes than are needed are no other way.
        if is_enough || found.len() == TOLD {
            break;
        }
    }
    found.sort_by_key(|fix| (!fix.is_whole, fix.changes.len()));
    found
}

const DEVICE: u8 = 4;

/// Non-private accesses, a release that makes available and an acquire that makes
/// visible, as far as they are missing, the fewest changes first; then all of it in
/// device scope.
fn candidates(table: &[u8], first: usize, second: usize) -> Vec<Vec<Change>> {
    let begin = first_row(table);
    let count = usize::from(table[6]);
    let row = |number: usize| {
        let at = begin + ROW_BYTES * number;
        let bytes = table.get(at..at + ROW_BYTES)?.try_into().ok()?;
        Some(Row::from_bytes(bytes))
    };
    let rows: Vec<Row> = (0..count).map_while(row).collect();
    let (Some(&x), Some(&y)) = (rows.get(first), rows.get(second)) else {
        return Vec::new();
    };
    let private = [(first, x), (second, y)].into_iter();
    let private = private.filter(|(_, row)| row.is_plain() && row.flags & flags::NON_PRIVATE == 0);
    let private: Vec<Change> = private
        .map(|(row, values)| Change {
            row,
            field: Field::Flags,
            value: values.flags | flags::NON_PRIVATE,
        })
        .collect();
    let mut all = Vec::new();
    if !private.is_empty() {
        all.push(private.clone());
    }
    // Either of the two may have come first.
    for (from, to) in [((first, x), (second, y)), ((second, y), (first, x))] {
        let sides = |number: usize, agent: u8, is_after: bool, class: u8, wanted: u8| {
            let side = rows.iter().enumerate().filter(move |(at, row)| {
                let is_there = if is_after { *at > number } else { *at < number };
                let is_for = row.classes & (1 << class) != 0 && row.order & wanted != 0;
                is_there && row.agent == agent && is_for && !row.is_plain()
            });
            side.map(|(at, row)| (at, *row)).collect::<Vec<_>>()
        };
        let releases = sides(from.0, from.1.agent, true, from.1.class, order::RELEASE);
        let mut acquires = sides(to.0, to.1.agent, false, to.1.class, order::ACQUIRE);
        acquires.reverse();
        for scope in [None, Some(DEVICE)] {
            for (release, acquire) in pairs(&releases, &acquires) {
                let mut changes = private.clone();
                for ((at, row), flag) in [
                    (release, flags::MAKE_AVAILABLE),
                    (acquire, flags::MAKE_VISIBLE),
                ] {
                    if row.flags & flag == 0 {
                        changes.push(Change {
                            row: at,
                            field: Field::Flags,
                            value: row.flags | flag,
                        });
                    }
                    if let Some(value) = scope.filter(|scope| *scope != row.scope) {
                        changes.push(Change {
                            row: at,
                            field: Field::Scope,
                            value,
                        });
                    }
                }
                if !changes.is_empty() && !all.contains(&changes) {
                    all.push(changes);
                }
            }
        }
    }
    all.sort_by_key(Vec::len);
    all
}

/// The nearest two of each side with each other.
fn pairs(
    releases: &[(usize, Row)],
    acquires: &[(usize, Row)],
) -> Vec<((usize, Row), (usize, Row))> {
    let releases = releases.iter().take(2);
    releases
        .flat_map(|release| acquires.iter().take(2).map(|acquire| (*release, *acquire)))
        .collect()
}

#[cfg(test)]
mod tests {
    use super::*;
    use tables::examples;

    fn edits(name: &str) -> Vec<String> {
        let example = examples().into_iter().find(|example| example.name == name);
        let table = example.expect(name).bytes;
        let mut checker = Checker::new();
        let CheckAnswer::Race { first, second, .. } = checker.check(&table) else {
            panic!("{name} doesn't race");
        };
        let fixes = fixes(&table, (first.into(), second.into()), &mut checker);
        assert!(fixes.iter().all(|fix| fix.is_whole), "{name}");
        fixes.iter().map(Fix::edit).collect()
    }

    #[test]
    fn dropped_flags_and_narrow_scopes_are_mended() {
        for (name, edit) in [
            ("leak", "row 2 flags 3"),
            ("p-not-visible", "row 2 flags 5"),
            ("p-private", "row 3 flags 1"),
            ("p-two-workgroups", "row 1 scope 4; row 2 scope 4"),
        ] {
            assert_eq!(
                edits(name).first().map(String::as_str),
                Some(edit),
                "{name}"
            );
        }
    }
}
