//! Ghosts: what a run lacks, by the change that comes first, drawn dashed in
//! the colour of the race.

use mend::{Cure, Field, Run};
use second::table::{Row, MAKE_AVAILABLE, MAKE_VISIBLE};
use std::collections::BTreeMap;
use words::names;

/// What rows lack, and the rows that there aren't.
#[derive(Clone, Debug, Default)]
pub struct Ghosts {
    pub rows: BTreeMap<usize, Lack>,
    /// New rows, each with the row that it would stand before.
    pub new: Vec<(usize, Row)>,
}

/// What a row lacks: moments before and after it, and what else its box would
/// say.
#[derive(Clone, Debug, Default, PartialEq, Eq)]
pub struct Lack {
    pub before: Option<String>,
    pub after: Option<String>,
    pub words: Vec<String>,
}

impl Ghosts {
    /// What a change would add, if it leaves a possible run.
    pub fn of(run: &Run, cure: Option<&Cure>) -> Ghosts {
        let Some(cure) = cure.filter(|cure| cure.outcome.is_good() && cure.has_room) else {
            return Ghosts::default();
        };
        let mut changed: BTreeMap<usize, Row> = BTreeMap::new();
        for edit in &cure.edits {
            let row = changed.entry(edit.row).or_insert(run.rows[edit.row]);
            *row = edit.field.set(*row, edit.value);
        }
        let rows = changed.iter();
        let rows = rows.map(|(row, wanted)| (*row, lack(run.rows[*row], *wanted)));
        Ghosts {
            rows: rows.filter(|(_, lack)| *lack != Lack::default()).collect(),
            new: new_rows(cure),
        }
    }
}

/// The new rows, with their places before any was put in.
fn new_rows(cure: &Cure) -> Vec<(usize, Row)> {
    let all = cure.insertions.iter().enumerate();
    let old = all.map(|(number, insertion)| {
        let earlier = cure.insertions[..number].iter().rev();
        let place = earlier.fold(insertion.place, |place, other| {
            place - usize::from(place > other.place)
        });
        (place, insertion.row)
    });
    old.collect()
}

fn lack(has: Row, wanted: Row) -> Lack {
    let gains = |flag: u8| wanted.flags & flag != 0 && has.flags & flag == 0;
    let moment = |word: &str| Some(format!("{word}, {}", names::scope(wanted.scope)));
    let mut lack = Lack::default();
    // A plain access makes itself available afterwards, visible before.
    if gains(MAKE_AVAILABLE) {
        let place = if has.is_plain() {
            &mut lack.after
        } else {
            &mut lack.before
        };
        *place = moment("available");
    }
    if gains(MAKE_VISIBLE) {
        let place = if has.is_plain() {
            &mut lack.before
        } else {
            &mut lack.after
        };
        *place = moment("visible");
    }
    lack.words = words(has, wanted, gains(MAKE_AVAILABLE) || gains(MAKE_VISIBLE));
    lack
}

/// What else a box would say.
fn words(has: Row, wanted: Row, is_flagged: bool) -> Vec<String> {
    let mut words = Vec::new();
    let changes = |field: Field| field.of(has) != field.of(wanted);
    if changes(Field::Kind) {
        words.push(names::kind(wanted.kind));
    }
    if changes(Field::Order) {
        words.push(names::order(wanted.order));
    }
    if wanted.is_non_private() && !has.is_non_private() && !is_flagged {
        words.push("non-private".to_string());
    }
    if changes(Field::Scope) && !(has.is_plain() && is_flagged) {
        words.push(format!("{} scope", names::scope(wanted.scope)));
    }
    if changes(Field::Classes) {
        let more = names::classes(wanted.classes & !has.classes);
        words.push(more);
    }
    words
}
