//! An answer as one sentence, for the top of a page or picture.

use crate::explain::Shown;
use crate::names;
use crate::refusal::is_of_a_row;

/// So many rows of a cycle are named.
const MOST_ROWS: usize = 6;

/// What a check's answer says.
pub fn headline(shown: &Shown) -> String {
    match shown {
        Shown::Nothing => "Race-free: every conflicting pair of rows is ordered".to_string(),
        Shown::Race(goal) => format!(
            "Race: nothing orders rows {} and {} at byte {}",
            goal.first, goal.second, goal.byte
        ),
        Shown::Overwritten {
            writer,
            reader,
            byte,
            ..
        } => format!(
            "Impossible: row {writer} had written over byte {byte} of what row {reader} read"
        ),
        Shown::Cycle { rows, .. } if rows.len() == 1 => {
            format!("Impossible: row {} comes before itself", rows[0])
        }
        Shown::Cycle { rows, .. } if rows.len() > MOST_ROWS => format!(
            "Impossible: {} rows, row {} the first, come before each other in a circle",
            rows.len(),
            rows[0]
        ),
        Shown::Cycle { rows, .. } => {
            let rows: Vec<String> = rows.iter().map(usize::to_string).collect();
            let rows = names::listed(&rows);
            format!("Impossible: rows {rows} come before each other in a circle")
        }
        Shown::Refused { number, row } if is_of_a_row(*number) => {
            format!("Refused: row {row} breaks rule of form {number}")
        }
        Shown::Refused { number, .. } => {
            format!("Refused: the header breaks rule of form {number}")
        }
    }
}

#[cfg(test)]
mod tests {
    use super::*;

    fn cycle(length: usize) -> String {
        headline(&Shown::Cycle {
            rows: (2..length + 2).collect(),
            edges: vec![1; length],
        })
    }

    #[test]
    fn long_cycles_are_counted() {
        assert_eq!(cycle(1), "Impossible: row 2 comes before itself");
        assert_eq!(
            cycle(3),
            "Impossible: rows 2, 3 and 4 come before each other in a circle"
        );
        assert_eq!(
            cycle(7),
            "Impossible: 7 rows, row 2 the first, come before each other in a circle"
        );
    }
}
