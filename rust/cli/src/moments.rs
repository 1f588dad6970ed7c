//! Which of two moments a table hasn't, where a derivation is refused for it.

use format::{flags, kind, scope, Row, ROW_BYTES};
use mend::first_row;

/// Why two numbers aren't two different moments of an accepted table.
pub fn absent(table: &[u8], first: u16, second: u16) -> Option<String> {
    let reasons = [first, second].map(|moment| why(table, moment).map(|why| (moment, why)));
    match reasons {
        [Some((moment, why)), None] => Some(format!("the first moment, {}, {why}", named(moment))),
        [None, Some((moment, why))] => Some(format!("the second moment, {}, {why}", named(moment))),
        [Some((one, _)), Some((other, _))] if one == other => {
            Some(format!("neither moment is there: both are {}", named(one)))
        }
        [Some((one, why)), Some((other, too))] => Some(format!(
            "neither moment is there: {} {why}, and {} {too}",
            named(one),
            named(other)
        )),
        [None, None] => (first == second).then(|| format!("both moments are {}", named(first))),
    }
}

fn named(moment: u16) -> String {
    let place = ["before", "at", "after"][usize::from(moment % 3)];
    format!("{moment} ({}.{place})", moment / 3)
}

/// Why a moment isn't there; nothing if it is.
fn why(table: &[u8], moment: u16) -> Option<String> {
    let count = table.get(6).map_or(0, |count| u16::from(*count));
    let number = moment / 3;
    if number >= count {
        return Some(match count {
            0 => "isn't there: the table has no rows".to_string(),
            _ => format!("isn't there: the last row is {}", count - 1),
        });
    }
    let at = first_row(table) + ROW_BYTES * usize::from(number);
    let row = Row::from_bytes(table.get(at..at + ROW_BYTES)?.try_into().ok()?);
    let is_fence = (kind::ATOMIC_READ..=kind::CONTROL_BARRIER).contains(&row.kind);
    let (flag, word) = match (moment % 3, row.kind) {
        (1, _) => return None,
        (0, kind::PLAIN_READ) => (flags::MAKE_VISIBLE, "makes nothing visible"),
        (2, kind::PLAIN_WRITE) => (flags::MAKE_AVAILABLE, "makes nothing available"),
        (0, _) if is_fence => (flags::MAKE_AVAILABLE, "makes nothing available"),
        (2, _) if is_fence => (flags::MAKE_VISIBLE, "makes nothing visible"),
        _ => return Some(format!("isn't there: a row like {number} has none there")),
    };
    if row.flags & flag == 0 {
        return Some(format!("isn't there: row {number} {word}"));
    }
    let is_own = row.scope == scope::INVOCATION;
    is_own.then(|| format!("isn't there: row {number} does so for its own invocation only"))
}

#[cfg(test)]
mod tests {
    use super::*;
    use stramashly::{Checker, DeriveAnswer};
    use tables::{checkable, examples, hosted, Random, Size};

    /// It is told exactly where the library refuses.
    #[test]
    fn what_is_absent_is_what_the_library_refuses() {
        let mut random = Random::new(12);
        let mut checker = Checker::new();
        let size = Size { least: 1, most: 12 };
        let mut refused = 0;
        for number in 0..60 {
            let table = match number % 3 {
                0 => hosted(&mut random, size),
                _ => checkable(&mut random, size),
            };
            let rows = table.rows.len() as u16;
            let table = table.bytes();
            for first in 0..3 * rows + 3 {
                for second in [0, 1, 2, 4, first, 3 * rows - 1, 3 * rows] {
                    let answer = checker.derive(&table, first, second);
                    let (is_12, is_other) = match answer {
                        DeriveAnswer::Refused { number, .. } => (number == 12, number != 12),
                        _ => (false, false),
                    };
                    let is_told = absent(&table, first, second).is_some();
                    assert!(is_other || is_told == is_12, "{first} {second} {table:?}");
                    refused += usize::from(is_12);
                }
            }
        }
        assert!(refused > 1000, "{refused}");
    }

    #[test]
    fn it_is_told_in_words() {
        let p = examples().into_iter().find(|example| example.name == "p");
        let p = p.unwrap().bytes;
        for (first, second, expected) in [
            (
                0,
                8,
                "the first moment, 0 (0.before), isn't there: a row like 0 has none there",
            ),
            (
                3,
                5,
                "the second moment, 5 (1.after), isn't there: row 1 makes nothing visible",
            ),
            (
                3,
                12,
                "the second moment, 12 (4.before), isn't there: the last row is 3",
            ),
            (3, 3, "both moments are 3 (1.before)"),
        ] {
            assert_eq!(absent(&p, first, second).as_deref(), Some(expected));
        }
        assert_eq!(absent(&p, 3, 8), None);
    }
}
