//! `explain`: an answer in sentences. The first line and the derivations are
//! the proved library's own; the rest comes from the second implementation.

use crate::naming::named;
use crate::nearest::Near;
use crate::race::Advice;
use crate::told::Checked;
use crate::{inconsistent, race, race_free, refusal};
use mend::{search, Cure, Goal, Judge, Notes, Relations};
use second::Chains;
use stramashly::{CheckAnswer, OwnedCheckAnswer};

/// What an answer shows, to be pointed out in a picture.
#[derive(Clone, Debug, PartialEq, Eq)]
pub enum Shown {
    Nothing,
    Race(Goal),
    Overwritten {
        source: usize,
        writer: usize,
        reader: usize,
        byte: u32,
    },
    /// Rows and the edge numbers between them, the last back to the first.
    Cycle {
        rows: Vec<usize>,
        edges: Vec<u16>,
    },
    Refused {
        number: u16,
        row: usize,
    },
}

impl Shown {
    /// The rows that the answer names.
    pub fn rows(&self) -> Vec<usize> {
        match self {
            Shown::Refused { number, row } if refusal::is_of_a_row(*number) => vec![*row],
            Shown::Nothing | Shown::Refused { .. } => Vec::new(),
            Shown::Race(goal) => vec![goal.first, goal.second],
            Shown::Overwritten {
                source,
                writer,
                reader,
                ..
            } => vec![*source, *writer, *reader],
            Shown::Cycle { rows, .. } => rows.clone(),
        }
    }
}

/// An answer in words.
#[derive(Clone, Debug)]
pub struct Explanation {
    /// What a check answers.
    pub answer: OwnedCheckAnswer,
    pub shown: Shown,
    /// Sentences, those that go into particulars indented.
    pub lines: Vec<String>,
    /// Of a race the rule that comes nearest.
    pub near: Option<Near>,
    /// What would end a race, the best first.
    pub cures: Vec<Cure>,
    /// The words for each of these.
    pub advice: Vec<Advice>,
    /// Whether it was asked with chains.
    pub chains: Chains,
    /// What the table's text says besides.
    pub notes: Notes,
    /// Whether all is told.
    pub is_all: bool,
}

impl Explanation {
    /// The answer without a word about it.
    fn bare(checked: Checked, checker: &mut dyn Judge, is_all: bool) -> Explanation {
        let chains = checker.chains();
        let given = checker.check(checked.table);
        Explanation {
            answer: given.into_owned(),
            shown: shown(checked, given),
            lines: Vec::new(),
            near: None,
            cures: Vec::new(),
            advice: Vec::new(),
            chains,
            notes: checked.run.notes.clone(),
            is_all,
        }
    }

    /// The answer and the sentences, a line each.
    pub fn text(&self) -> String {
        let mut text = format!("{}\n", self.answer);
        for line in &self.lines {
            text += line;
            text.push('\n');
        }
        text
    }
}

/// Explains a table's answer, whatever its bytes.
pub fn explain(table: &[u8], checker: &mut dyn Judge) -> Explanation {
    explain_noted(table, &Notes::default(), checker, false)
}

/// Explains the answer to a table of which more is noted; at length if all is
/// wanted.
pub fn explain_noted(
    table: &[u8],
    notes: &Notes,
    checker: &mut dyn Judge,
    is_all: bool,
) -> Explanation {
    let relations = Relations::of(checker.chains(), table, notes);
    let checked = Checked::from(&relations);
    let mut explanation = Explanation::bare(checked, checker, is_all);
    if relations.answer == explanation.answer {
        tell(table, checked, checker, &mut explanation);
    } else {
        // The proved answer stands; there are no words for it.
        explanation.lines = vec![format!(
            "No explanation: the unproved second implementation answers `{}`. Please report this table.",
            relations.answer
        )];
    }
    let lines = explanation.lines.iter();
    explanation.lines = lines.map(|line| named(notes, line)).collect();
    explanation
}

/// Adds the sentences, and the cures of a race.
fn tell(table: &[u8], checked: Checked, checker: &mut dyn Judge, explanation: &mut Explanation) {
    explanation.lines = match explanation.shown {
        Shown::Nothing => race_free::lines(checked, explanation.is_all),
        Shown::Refused { number, row } => refusal::check_lines(table, number, row, checker),
        ref shown @ (Shown::Cycle { .. } | Shown::Overwritten { .. }) => {
            let mut lines = inconsistent::lines(checked, shown);
            lines.extend(inconsistent::causes(checked, shown));
            lines.extend(inconsistent::counted_ranks(checked, checker));
            lines.extend(inconsistent::other_sources(checked, shown, checker));
            lines
        }
        Shown::Race(goal) => {
            let found = search(table, *checked, goal, checker);
            let near = checked.nearest(goal.first, goal.second, goal.byte);
            let mut lines = race::lines(checked, goal, (&near, &found), explanation.is_all);
            // What a rule lacks is said of single operations.
            if explanation.chains == Chains::On {
                lines.push("Chains are on: none of several availability or visibility operations orders them either.".to_string());
            }
            let advice = found.cures.iter();
            explanation.advice = advice.map(|cure| advised(checked, goal, cure)).collect();
            explanation.cures = found.cures;
            explanation.near = Some(near);
            lines
        }
    };
}

/// The words for a change, with what is noted.
fn advised(checked: Checked, goal: Goal, cure: &Cure) -> Advice {
    let advice = race::advice(checked, goal, cure);
    let with_notes = |lines: &[String]| -> Vec<String> {
        let lines = lines.iter();
        lines.map(|line| named(&checked.run.notes, line)).collect()
    };
    Advice {
        reasons: with_notes(&advice.reasons),
        glsl: with_notes(&advice.glsl),
        spirv: with_notes(&advice.spirv),
    }
}

/// What an answer shows of a table.
pub fn shown(checked: Checked, answer: CheckAnswer) -> Shown {
    match answer {
        CheckAnswer::RaceFree => Shown::Nothing,
        CheckAnswer::Refused { number, row } => Shown::Refused {
            number,
            row: row.into(),
        },
        CheckAnswer::Race {
            first,
            second,
            byte,
        } => Shown::Race(Goal::new(first, second, byte)),
        CheckAnswer::Overwritten {
            reader,
            writer,
            byte,
        } => Shown::Overwritten {
            // Only a row that is read from can be written over.
            source: checked.state.read_from(reader.into()).unwrap_or(0),
            writer: writer.into(),
            reader: reader.into(),
            byte: byte.into(),
        },
        CheckAnswer::Cycle { rows, edges } => Shown::Cycle {
            rows: rows.iter().map(|row| usize::from(*row)).collect(),
            edges: edges.to_vec(),
        },
        _ => panic!("a check has no such answer: {answer}"),
    }
}
