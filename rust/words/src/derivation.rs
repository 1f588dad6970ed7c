//! Derivations of happens-before in words, a line for each of M6's direct
//! steps. They are found and read by the proved library.

use crate::names;
pub use mend::at;
use second::table::Row;
use second::{ACQUIRE_STEP, AFTER, AT, BEFORE, RELEASE_STEP, SYNCHRONIZES_STEP, SYSTEM_STEP};
use stramashly::{AcceptsAnswer, Checker, Derivation, DeriveAnswer, STEP_CASE};

/// A step's case and the moment that it reaches.
pub fn step_parts(step: u16) -> (u16, usize) {
    (step / STEP_CASE, usize::from(step % STEP_CASE))
}

/// Why a moment happens before another, a line for each step: the proved
/// finder's derivation, which the proved reader has accepted.
pub fn derived_lines(table: &[u8], rows: &[Row], (from, to): (usize, usize)) -> Vec<String> {
    let mut checker = Checker::new();
    // Three moments for each of 128 rows.
    let (first, second) = (from as u16, to as u16);
    if let DeriveAnswer::Derivation(derivation) = checker.derive(table, first, second) {
        let answer = Checker::accepts(table, first, second, derivation);
        if answer == AcceptsAnswer::Accepted {
            return derivation_lines(rows, from, derivation);
        }
    }
    vec!["no derivation of this is accepted; please report this table".to_string()]
}

/// A derivation in words, a line for each step. This is the one place where
/// a derivation becomes text, whoever found it.
pub fn derivation_lines(rows: &[Row], from: usize, derivation: Derivation) -> Vec<String> {
    let Derivation::Chain { classes, steps } = derivation else {
        return vec!["program order, M1: one agent's rows in their order".to_string()];
    };
    let mut moment = from;
    let mut lines = Vec::new();
    for step in steps {
        let (case, reached) = step_parts(*step);
        lines.push(step_words(rows, classes, case, moment, reached));
        moment = reached;
    }
    lines
}

fn step_words(rows: &[Row], classes: u8, case: u16, from: usize, to: usize) -> String {
    let (start, end) = (moment_words(rows, from), moment_words(rows, to));
    let classes = names::classes(classes);
    match u8::try_from(case) {
        Ok(SYNCHRONIZES_STEP) => {
            let meeting = meeting_words(rows, from / 3, to / 3);
            format!("{start} synchronizes with {end}{meeting}, both for {classes} (M6, case 1)")
        }
        Ok(RELEASE_STEP) => {
            format!("{start} comes before {end}, a release for {classes} (M6, case 2)")
        }
        Ok(ACQUIRE_STEP) => {
            format!("{start}, an acquire for {classes}, comes before {end} (M6, case 3)")
        }
        Ok(SYSTEM_STEP) => {
            format!("{end} depends on {start}: system synchronization, for {classes} as for all (M6, case 4)")
        }
        _ => format!("{start} leads to {end} for {classes} (M6, case {case})"),
    }
}

/// The meeting by which two barriers synchronize, if there is one.
fn meeting_words(rows: &[Row], release: usize, acquire: usize) -> String {
    let is_barrier = |row: usize| rows.get(row).is_some_and(|row| row.is_barrier());
    if !is_barrier(release) || !is_barrier(acquire) {
        return String::new();
    }
    let agent = |row: usize| rows[row].agent;
    match meeting(rows, (agent(release), release), (agent(acquire), acquire)) {
        None => String::new(),
        Some((one, other)) if (one, other) == (release, acquire) => {
            format!(", both of control barrier {}", rows[one].instance())
        }
        Some((one, other)) => format!(
            ", with rows {one} and {other} of control barrier {} between them",
            rows[one].instance()
        ),
    }
}

/// The first two rows of one control barrier's instance, the one an agent's
/// from a row on, the other another agent's up to a row.
pub fn meeting(
    rows: &[Row],
    (agent, from): (u8, usize),
    (other, to): (u8, usize),
) -> Option<(usize, usize)> {
    let is_met = |row: usize, agent: u8| rows[row].is_control_barrier() && rows[row].agent == agent;
    let ours = (from..rows.len()).filter(|row| is_met(*row, agent));
    let theirs: Vec<usize> = (0..=to).filter(|row| is_met(*row, other)).collect();
    let mut pairs = ours.flat_map(|one| theirs.iter().map(move |two| (one, *two)));
    pairs.find(|(one, two)| one != two && rows[*one].instance() == rows[*two].instance())
}

/// A moment in words: the row itself, or what the row does before or after.
pub fn moment_words(rows: &[Row], moment: usize) -> String {
    let (row, place) = (moment / 3, moment % 3);
    let is_plain = rows.get(row).is_some_and(|row| row.is_plain());
    match (place, is_plain) {
        (AT, _) => format!("row {row}"),
        (BEFORE, false) | (AFTER, true) => format!("row {row}'s availability moment"),
        _ => format!("row {row}'s visibility moment"),
    }
}
