//! A race in sentences: the rows, the rule that comes nearest and what it
//! lacks, and the changes that would end it.

use crate::describe::Describe;
use crate::names::{class, counted};
use crate::nearest::Near;
use crate::reason::rows_words;
use crate::shader::{glsl, needs, spirv};
use crate::told::Checked;
use mend::{steps_text, Change, Cure, Field, Goal, Order, Outcome, Reason, Search};
use second::table::{Row, QUEUE};
use second::MAX_ROWS;
use stramashly::OwnedCheckAnswer;

/// So many changes are shown at most, unless all are wanted.
const SHOWN_CURES: usize = 8;
/// So many other races are named at most.
const SHOWN_RACES: usize = 8;

/// The race and what the search for cures found.
pub fn lines(
    checked: Checked,
    goal: Goal,
    (near, found): (&Near, &Search),
    is_all: bool,
) -> Vec<String> {
    let mut lines = rows_lines(checked, goal, near);
    let other_memory = other_memory(checked, goal);
    let mut cures = match is_all {
        true => found.cures.iter().collect(),
        false => worth_showing(&found.cures),
    };
    // Where there is something else to do, impossible runs aren't shown.
    let has_way = other_memory.is_some() && !is_all;
    cures.retain(|cure| !has_way || cure.outcome != Outcome::Impossible);
    if cures.is_empty() && !has_way {
        lines.push(no_cure(checked, goal, found));
    }
    lines.extend(other_memory);
    lines.extend(cures_lines(
        checked,
        goal,
        (cures, found.cures.len()),
        is_all,
    ));
    lines.extend(other_races(checked, goal));
    lines
}

/// The racing rows, and what the nearest rule lacks.
fn rows_lines(checked: Checked, goal: Goal, near: &Near) -> Vec<String> {
    let (first, second, byte) = (goal.first, goal.second, goal.byte);
    let mut lines = vec![
        format!("Rows {first} and {second} conflict, and nothing orders them at byte {byte}:"),
        format!("  {}", checked.run.described(first)),
        format!("  {}", checked.run.described(second)),
    ];
    lines.extend(checked.not_mutual(first, second));
    let (rule, before, after) = (near.rule, near.before, near.after);
    lines.push(format!(
        "Of the rules of order, L{rule} comes nearest ({}), row {before} before row {after}. It lacks this:",
        in_short(rule, checked.run.rows[after])
    ));
    lines.extend(near.lacks.iter().map(|lack| format!("  {lack}")));
    lines
}

/// What a rule of location order asks before such a row.
fn in_short(rule: u8, after: Row) -> &'static str {
    match (rule, after.reads(), after.writes()) {
        (1, ..) => "one agent's own order",
        (2, ..) => "a read that happens before the other access",
        (4, ..) => "a read from which dependencies lead to the other access",
        (5, ..) => "a write that operations of queues carry to the other access",
        (_, true, false) => "a write that is made available, then visible to a read",
        (_, true, true) => "a write that is made available, then visible to a read-modify-write",
        (_, false, _) => "a write that is made available before the other write",
    }
}

/// The other racing pairs.
fn other_races(checked: Checked, goal: Goal) -> Option<String> {
    let others = checked.races().into_iter();
    let others = others.filter(|other| (other.first, other.second) != (goal.first, goal.second));
    let races: Vec<String> = others
        .map(|other| {
            format!(
                "rows {} and {} at byte {}",
                other.first, other.second, other.byte
            )
        })
        .collect();
    let shown = races.len().min(SHOWN_RACES);
    let more = match races.len() - shown {
        0 => String::new(),
        count => format!(", and {}", counted(count, "more pair")),
    };
    let named = races[..shown].join(", ");
    (!races.is_empty()).then(|| format!("Other races: {named}{more}."))
}

/// Memory of two classes is no one variable: no instruction of a shader
/// orders a write of the one before an access of the other.
fn other_memory(checked: Checked, goal: Goal) -> Option<String> {
    let rows = &checked.run.rows;
    let (first, second) = (rows[goal.first], rows[goal.second]);
    let is_other = first.reference != second.reference && first.class != second.class;
    (is_other && !checked.has_host(goal.first, goal.second)).then(|| {
        format!(
            "Rows {} and {} reach the same memory as {} and as {}, which are never one variable, and L3 asks for one reference. Let them be of two dispatches with a pipeline barrier between these: in version 3 an availability to device and a visibility from device of a queue, with dependencies.",
            goal.first,
            goal.second,
            class(first.class),
            class(second.class)
        )
    })
}

/// The parts in which changes are shown, by what comes of them.
fn part_title(cure: &Cure, goal: Goal) -> String {
    match (cure.outcome, cure.is_silent()) {
        _ if !cure.has_room => {
            let tried = "Tried with the racing agents' rows alone, each of these orders them:";
            format!("The table is full: it has {MAX_ROWS} rows, and none can be put in. {tried}")
        }
        (Outcome::RaceFree, false) => "Each of these makes the run race-free:".to_string(),
        (Outcome::OtherRace { .. }, false) => {
            "Each of these ends this race, and others are left:".to_string()
        }
        (Outcome::RaceFree | Outcome::OtherRace { .. }, true) => {
            "This ends the race and orders nothing:".to_string()
        }
        (Outcome::OtherByte, _) => format!(
            "Each of these ends the race at byte {}, and rows {} and {} race at another:",
            goal.byte, goal.first, goal.second
        ),
        (Outcome::Impossible, _) => {
            "Each of these orders them, but the run as recorded can't happen then:".to_string()
        }
    }
}

/// The changes part by part, of so many, and what a shader needs for them.
fn cures_lines(
    checked: Checked,
    goal: Goal,
    (cures, all): (Vec<&Cure>, usize),
    is_all: bool,
) -> Vec<String> {
    let mut lines = Vec::new();
    let shown = if is_all {
        cures.len()
    } else {
        SHOWN_CURES.min(cures.len())
    };
    let mut title = String::new();
    for (place, cure) in cures.iter().take(shown).enumerate() {
        let next = part_title(cure, goal);
        if next != title {
            lines.push(next.clone());
            title = next;
        }
        lines.extend(cure_lines(checked, goal, place + 1, cure));
    }
    if all > shown {
        let more = counted(all - shown, "more change");
        lines.push(format!("--all shows {more}."));
    }
    lines.extend(needs_line(checked, &cures[..shown]));
    lines
}

/// What a program and a device need for changes, once for all of them.
fn needs_line(checked: Checked, cures: &[&Cure]) -> Option<String> {
    let rows = cures.iter().flat_map(|cure| changed_rows(checked, cure));
    let mut wanted: Vec<&str> = Vec::new();
    for need in rows.flat_map(|(_, row)| needs(row)) {
        if !wanted.contains(&need) {
            wanted.push(need);
        }
    }
    let words = wanted.join(", ");
    (!wanted.is_empty()).then(|| format!("What the GLSL and SPIR-V above need: {words}."))
}

/// The changes that are shown if not all are wanted: impossible runs only
/// where there is nothing else, and what orders nothing only where nothing that
/// is there can be made to, or where it comes first.
pub fn worth_showing(cures: &[Cure]) -> Vec<&Cure> {
    let has_order = cures.first().is_some_and(|first| !first.is_silent())
        && cures
            .iter()
            .any(|cure| cure.outcome.is_good() && cure.is_stronger());
    let is_worth = |cure: &&Cure| {
        let is_possible = cure.outcome != Outcome::Impossible;
        is_possible && !(has_order && cure.is_silent())
    };
    let worth: Vec<&Cure> = cures.iter().filter(is_worth).collect();
    match worth.is_empty() {
        true => cures.iter().collect(),
        false => worth,
    }
}

/// What was tried in vain.
fn no_cure(checked: Checked, goal: Goal, found: &Search) -> String {
    let tried = counted(found.tried, "small change");
    let full = match found.is_full {
        true => format!("; the table is full: it has {MAX_ROWS} rows, and none can be put in"),
        false => String::new(),
    };
    let rest = if found.is_cut {
        "so far as they were tried: with so many rows not all were"
    } else if checked.has_host(goal.first, goal.second) {
        match checked.run.sorts.contains(&QUEUE) {
            true => "nor do several together, nor operations and dependencies put in",
            false => "nor do several together, and there is no queue agent for operations",
        }
    } else {
        "nor do several together, nor a release and an acquire between them"
    };
    format!("None of {tried} orders them, {rest}{full}.")
}

/// A change in words.
#[derive(Clone, Debug, Default, PartialEq, Eq)]
pub struct Advice {
    /// Why it ends the race, and what is to be done.
    pub reasons: Vec<String>,
    /// Each instruction as it is to be, in GLSL and in SPIR-V.
    pub glsl: Vec<String>,
    pub spirv: Vec<String>,
}

/// The words for a change.
pub fn advice(checked: Checked, goal: Goal, cure: &Cure) -> Advice {
    let new = cure.insertions.len();
    let changes = cure.changes.iter();
    let mut advice = Advice {
        reasons: changes
            .flat_map(|change| checked.change_words(change, goal, new))
            .collect(),
        ..Advice::default()
    };
    for (name, row) in changed_rows(checked, cure) {
        advice.glsl.push(format!("{name} {}", glsl(row)));
        advice.spirv.push(format!("{name} {}", spirv(row)));
    }
    let reasons = cure.changes.iter().flat_map(|change| &change.reasons);
    for reason in reasons {
        if let Reason::OtherReference { row, other } = reason {
            let glsl = format!("row {row} by the variable of row {other}");
            let spirv = format!("row {row} by the pointer of row {other}");
            advice.glsl.push(glsl);
            advice.spirv.push(spirv);
        }
    }
    advice
}

/// The reasons, the edit, and what comes of it.
fn cure_lines(checked: Checked, goal: Goal, number: usize, cure: &Cure) -> Vec<String> {
    let advice = advice(checked, goal, cure);
    let reasons = advice.reasons.iter().enumerate();
    let mut lines: Vec<String> = reasons
        .map(|(place, reason)| match place {
            0 => format!("  {number}. {reason}."),
            _ => format!("     And {reason}."),
        })
        .collect();
    if cure.has_room {
        lines.push(format!("     edit: {}", steps_text(&cure.steps())));
    }
    if !advice.glsl.is_empty() {
        lines.push(format!("     GLSL: {}", advice.glsl.join("; ")));
        lines.push(format!("     SPIR-V: {}", advice.spirv.join("; ")));
    }
    if cure.has_room {
        lines.push(format!("     {}", outcome_words(cure)));
    }
    lines
}

/// `Then L3 puts row 0 first, and check answers ...`
fn outcome_words(cure: &Cure) -> String {
    let counted = match cure.answer {
        OwnedCheckAnswer::RaceFree => "",
        _ if cure.insertions.is_empty() => "",
        _ => ", the new rows counted",
    };
    let left = match cure.outcome {
        Outcome::OtherRace { left } => format!("; {} left", counted_races(left)),
        _ => String::new(),
    };
    let order = match cure.order {
        Some(Order::Mutual) => "they are mutually-ordered, and ".to_string(),
        Some(Order::Rule { rule, first }) => format!("L{rule} puts row {first} first, and "),
        None => String::new(),
    };
    format!(
        "Then {order}check answers `{}`{counted}{left}.",
        cure.answer
    )
}

fn counted_races(left: usize) -> String {
    match left {
        1 => "1 race is".to_string(),
        _ => format!("{left} races are"),
    }
}

/// The instructions that are others then, each once, and the new ones.
fn changed_rows(checked: Checked, cure: &Cure) -> Vec<(String, Row)> {
    let changes = cure.changes.iter();
    let mut changed: Vec<(String, Row)> = changes
        .flat_map(|change| edited_rows(checked, change))
        .collect();
    let new = cure.insertions.iter();
    let new = new.filter(|insertion| !insertion.row.is_queue_operation());
    let new = alike(new.map(|insertion| (insertion.place, insertion.row)));
    changed.extend(new.into_iter().map(|(places, row)| {
        let name = match cure.has_room {
            true => format!("new {}", rows_words(&places)),
            false => "new row".to_string(),
        };
        (name, row)
    }));
    changed
}

/// The instructions that a change makes others; rows that become atomics are
/// several.
fn edited_rows(checked: Checked, change: &Change) -> Vec<(String, Row)> {
    let rows = change.rows.iter().filter_map(|number| {
        let row = checked.run.rows[*number];
        let edits = change.edits.iter().filter(|edit| edit.row == *number);
        // A class goes with a reference, and is no instruction's own.
        let edits = edits.filter(|edit| edit.field.is_of_program() && edit.field != Field::Class);
        let edited = edits.fold(row, |row, edit| edit.field.set(row, edit.value));
        (edited != row).then_some((*number, edited))
    });
    let rows = alike(rows).into_iter();
    rows.map(|(numbers, row)| (checked.instruction_name(&numbers, numbers[0]), row))
        .collect()
}

/// Rows with one instruction put together, with their numbers.
fn alike(rows: impl Iterator<Item = (usize, Row)>) -> Vec<(Vec<usize>, Row)> {
    let mut found: Vec<(Vec<usize>, Row)> = Vec::new();
    for (number, row) in rows {
        // What is left is the run's or another agent's.
        let row = Row {
            agent: 0,
            source: 0,
            rank: 0,
            start: 0,
            ..row
        };
        match found.iter_mut().find(|(_, known)| *known == row) {
            Some((numbers, _)) => numbers.push(number),
            None => found.push((vec![number], row)),
        }
    }
    found
}
