//! `draw` and `explain --html`: the picture of a table, with the proved answer
//! on it, and the page with picture, sentences and table.

mod markup;
mod page;
mod picture;

pub use page::page;

use crate::picture::picture;
use mend::{search, Judge, Notes, Relations, Search};
use stramashly::OwnedCheckAnswer;
use words::{shown, Checked, Shown};

/// The table as an SVG document, or the answer to a refused table, which has no
/// picture.
/// Of a large run only the rows that matter are drawn, unless all are wanted.
pub fn draw(
    table: &[u8],
    checker: &mut dyn Judge,
    is_all: bool,
) -> Result<String, OwnedCheckAnswer> {
    draw_noted(table, &Notes::default(), checker, is_all)
}

/// The same of a table of which more is noted.
pub fn draw_noted(
    table: &[u8],
    notes: &Notes,
    checker: &mut dyn Judge,
    is_all: bool,
) -> Result<String, OwnedCheckAnswer> {
    let chains = checker.chains();
    let answer = checker.check(table).into_owned();
    if let OwnedCheckAnswer::Refused { .. } = answer {
        return Err(answer);
    }
    let relations = Relations::of(chains, table, notes);
    let checked = Checked::from(&relations);
    let shown = shown(checked, answer.borrowed());
    let found = match shown {
        Shown::Race(goal) => search(table, *checked, goal, checker),
        _ => Search::default(),
    };
    let shown = (&shown, found.cures.first());
    Ok(picture(checked, &answer, shown, is_all))
}
