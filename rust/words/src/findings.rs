//! What a check found, one finding after the other, for tools that list them:
//! the proved answer first, then the other races, by the second implementation.

use crate::describe::Describe;
use crate::explain::{shown, Shown};
use crate::headline::headline;
use crate::refusal;
use crate::told::Checked;
use mend::{Goal, Judge, Notes, Relations, Run};
use stramashly::OwnedCheckAnswer;

/// One thing that was found.
#[derive(Clone, Debug, PartialEq, Eq)]
pub struct Finding {
    /// What a check answers of it.
    pub answer: OwnedCheckAnswer,
    /// A sentence, and more of a refusal.
    pub message: String,
    /// The rows that it is about, each with its description.
    pub rows: Vec<(usize, String)>,
    /// Whether it is the proved library's own answer.
    pub is_proved: bool,
}

/// What a check of the table found; nothing of a race-free one.
pub fn findings(table: &[u8], notes: &Notes, checker: &mut dyn Judge) -> Vec<Finding> {
    let relations = Relations::of(checker.chains(), table, notes);
    let checked = Checked::from(&relations);
    let given = checker.check(table);
    let (shown, answer) = (shown(checked, given), given.into_owned());
    let finding = |answer, shown: &Shown, is_proved| Finding {
        answer,
        message: message(table, shown),
        rows: described(checked.run, shown),
        is_proved,
    };
    let is_agreed = relations.answer == answer;
    match shown {
        Shown::Nothing => Vec::new(),
        Shown::Race(goal) => {
            let others = checked.races().into_iter().filter(|other| *other != goal);
            let others = others.filter(|_| is_agreed).map(|other| {
                // Rows and bytes of a table are numbers of two bytes.
                let answer = OwnedCheckAnswer::Race {
                    first: other.first as u16,
                    second: other.second as u16,
                    byte: other.byte as u16,
                };
                finding(answer, &Shown::Race(other), false)
            });
            let found = std::iter::once(finding(answer, &shown, true));
            found.chain(others).collect()
        }
        _ => vec![finding(answer, &shown, true)],
    }
}

/// Races that whoever asks has found already, the first of them the check's own
/// answer. Nothing is judged again.
pub fn race_findings(table: &[u8], notes: &Notes, races: &[Goal]) -> Vec<Finding> {
    let run = Run::of(table).noted(notes);
    let findings = races.iter().enumerate().map(|(place, goal)| {
        let shown = Shown::Race(*goal);
        Finding {
            answer: OwnedCheckAnswer::Race {
                first: goal.first as u16,
                second: goal.second as u16,
                byte: goal.byte as u16,
            },
            message: message(table, &shown),
            rows: described(&run, &shown),
            is_proved: place == 0,
        }
    });
    findings.collect()
}

fn message(table: &[u8], shown: &Shown) -> String {
    let headline = headline(shown);
    match shown {
        Shown::Refused { number, row } => {
            let lines = refusal::lines(table, *number, *row);
            let lines: Vec<&str> = lines.iter().map(|line| line.trim()).collect();
            format!("{headline}. {}", lines.join(" "))
        }
        _ => format!("{headline}."),
    }
}

/// The rows and what they are; of a refused table they may not be whole.
fn described(run: &Run, shown: &Shown) -> Vec<(usize, String)> {
    let rows = shown.rows().into_iter();
    let rows = rows.filter(|row| *row < run.rows.len());
    rows.map(|row| (row, run.described_in_full(row))).collect()
}
