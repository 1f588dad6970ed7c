//! The steps that make one table of another, as `edit` reads them and
//! `explain` writes them.

use crate::dependency::Dependency;
use crate::edit::{whole_number, Edit};
use crate::insertion::{row_count, Insertion};
use std::fmt;
use std::str::FromStr;

/// One step from a table to another; several are made one after the other.
#[derive(Clone, Copy, Debug, PartialEq, Eq)]
pub enum Step {
    Edit(Edit),
    Insert(Insertion),
    Depend(Dependency),
}

impl Step {
    /// Makes the step; the reason if the table has no such row or place.
    pub fn apply(self, table: &mut Vec<u8>) -> Result<(), String> {
        match self {
            Step::Insert(insertion) => insertion.apply(table),
            Step::Depend(dependency) => dependency.apply(table),
            Step::Edit(edit) => {
                let rows = row_count(table)?;
                if edit.row >= rows {
                    return Err(format!("there is no row {}", edit.row));
                }
                edit.apply(table);
                Ok(())
            }
        }
    }
}

impl fmt::Display for Step {
    fn fmt(&self, formatter: &mut fmt::Formatter) -> fmt::Result {
        match self {
            Step::Edit(edit) => edit.fmt(formatter),
            Step::Insert(insertion) => insertion.fmt(formatter),
            Step::Depend(dependency) => dependency.fmt(formatter),
        }
    }
}

impl FromStr for Step {
    type Err = String;

    fn from_str(text: &str) -> Result<Step, String> {
        match text.split_whitespace().next() {
            Some("insert") => text.parse().map(Step::Insert),
            Some("depend") => text.parse().map(Step::Depend),
            _ => text.parse().map(Step::Edit),
        }
    }
}

/// The table after these steps, or the reason why one can't be made.
pub fn stepped(table: &[u8], steps: &[Step]) -> Result<Vec<u8>, String> {
    let mut changed = table.to_vec();
    for step in steps {
        let made = step.apply(&mut changed);
        made.map_err(|reason| format!("`{step}`: {reason}"))?;
    }
    Ok(changed)
}

/// Steps with semicolons between them. Edits of several rows may be one:
/// `rows 8-15,20 flags 6`.
pub fn parse_steps(text: &str) -> Result<Vec<Step>, String> {
    let parts = text.split(';').map(str::trim);
    let parts = parts.filter(|part| !part.is_empty());
    let steps: Result<Vec<Vec<Step>>, String> = parts.map(of_rows).collect();
    Ok(steps?.concat())
}

/// The steps of one part.
fn of_rows(part: &str) -> Result<Vec<Step>, String> {
    let Some(rest) = part.strip_prefix("rows ") else {
        return Ok(vec![part.parse()?]);
    };
    let bad = || format!("no edit: {part:?}");
    let (rows, change) = rest.trim_start().split_once(' ').ok_or_else(bad)?;
    let mut steps = Vec::new();
    for range in rows.split(',') {
        let (first, last) = range.split_once('-').unwrap_or((range, range));
        let first = whole_number(first, LAST_ROW).ok_or_else(bad)?;
        let last = whole_number(last, LAST_ROW).ok_or_else(bad)?;
        for row in first..=last {
            steps.push(format!("row {row} {change}").parse()?);
        }
    }
    Ok(steps)
}

/// No table has a row of a higher number.
const LAST_ROW: usize = second::MAX_ROWS - 1;

/// Steps as they are read again: edits of one field to one value are one, up
/// to the first step that moves rows.
pub fn steps_text(steps: &[Step]) -> String {
    let mut parts: Vec<(Vec<usize>, Step)> = Vec::new();
    for step in steps {
        let is_moved = parts.iter().any(|(rows, _)| rows.is_empty());
        let mut known = parts.iter_mut().filter(|_| !is_moved);
        let known = known.find(|(_, known)| match (known, step) {
            (Step::Edit(one), Step::Edit(other)) => {
                (one.field, one.value) == (other.field, other.value)
            }
            _ => false,
        });
        match (known, step) {
            (Some((rows, _)), Step::Edit(edit)) => rows.push(edit.row),
            (_, Step::Edit(edit)) => parts.push((vec![edit.row], *step)),
            _ => parts.push((Vec::new(), *step)),
        }
    }
    let parts: Vec<String> = parts.iter().map(part_text).collect();
    parts.join("; ")
}

fn part_text((rows, step): &(Vec<usize>, Step)) -> String {
    match (step, &rows[..]) {
        (Step::Edit(edit), [_, _, ..]) => {
            let rows = ranges(rows, "-").join(",");
            format!("rows {rows} {} {}", edit.field.name(), edit.value)
        }
        _ => step.to_string(),
    }
}

/// Rows in order, neighbours as one: `8-15`, `20`.
pub fn ranges(rows: &[usize], between: &str) -> Vec<String> {
    let mut rows = rows.to_vec();
    rows.sort_unstable();
    let runs = rows.chunk_by(|one, next| one + 1 == *next);
    runs.flat_map(|run| match run {
        [first, .., last] if run.len() > 2 => vec![format!("{first}{between}{last}")],
        few => few.iter().map(usize::to_string).collect(),
    })
    .collect()
}
