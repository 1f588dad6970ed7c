//! Runs that can't have happened, in sentences: cycles and overwritten reads,
//! and what such a run may mean.

use crate::describe::Describe;
use crate::explain::Shown;
use crate::names;
use crate::told::Checked;
use mend::{edited, Edit, Field, Judge};
use second::table::{Row, COUNTED_RANKS};
use second::INITIAL;
use stramashly::CheckAnswer;

/// Edges between rows, by their numbers.
const EDGES: [&str; 4] = [
    "location order",
    "scoped modification order",
    "source to reader",
    "from-reads",
];

/// An edge number's name.
pub fn edge_name(number: u16) -> &'static str {
    let place = usize::from(number).wrapping_sub(1);
    EDGES.get(place).copied().unwrap_or("edge")
}

/// What shows that the run can't have happened; nothing of other answers.
pub fn lines(checked: Checked, shown: &Shown) -> Vec<String> {
    match shown {
        Shown::Cycle { rows, edges } => cycle_lines(checked, rows, edges),
        Shown::Overwritten {
            source,
            writer,
            reader,
            byte,
        } => overwritten_lines(checked, [*source, *writer, *reader], *byte),
        _ => Vec::new(),
    }
}

/// The rows of a cycle, and why each comes before the next.
fn cycle_lines(checked: Checked, rows: &[usize], edges: &[u16]) -> Vec<String> {
    let mut lines = vec!["Each of these rows comes before the next, and the last before the first, so the run can't have happened:".to_string()];
    lines.extend(
        rows.iter()
            .map(|row| format!("  {}", checked.run.described(*row))),
    );
    lines.push("The steps:".to_string());
    for (place, row) in rows.iter().enumerate() {
        let next = rows[(place + 1) % rows.len()];
        lines.extend(edge_lines(checked, *row, next, edges[place]));
    }
    lines
}

fn edge_lines(checked: Checked, x: usize, y: usize, edge: u16) -> Vec<String> {
    let rows = &checked.run.rows;
    let why = match edge {
        1 => String::new(),
        2 => format!(
            ": mutually-ordered writers, {} {} before {}",
            checked.run.rank_word(),
            rows[x].rank,
            rows[y].rank
        ),
        3 => format!(": row {y} read row {x}"),
        _ => match checked.state.read_from(x) {
            Some(source) => format!(
                ": row {x} read row {source}, which row {y} follows in scoped modification order"
            ),
            None => format!(": row {x} read the initial value, which row {y} writes over"),
        },
    };
    let name = edge_name(edge);
    let mut lines = vec![format!(
        "  row {x} before row {y} by {name} (edge {edge}){why}"
    )];
    let bytes = checked.shared_bytes(x, y);
    let ordered = bytes
        .into_iter()
        .find(|byte| checked.state.location_order(x, y, *byte));
    if let (1, Some(byte)) = (edge, ordered) {
        let order = checked.order_lines(x, y, byte);
        lines.push(format!("    at byte {byte}:"));
        lines.extend(order.iter().map(|line| format!("    {line}")));
    }
    lines
}

/// A source, the row that wrote over it, the reader, and their order.
fn overwritten_lines(
    checked: Checked,
    [source, writer, reader]: [usize; 3],
    byte: u32,
) -> Vec<String> {
    let mut lines = vec![
        format!("Row {reader} read row {source}'s byte {byte}, but row {writer} had written over it before, so the run can't have happened:"),
        format!("  {}", checked.run.described(source)),
        format!("  {}", checked.run.described(writer)),
        format!("  {}", checked.run.described(reader)),
        format!("The order at byte {byte}:"),
    ];
    for (before, after) in [(source, writer), (writer, reader)] {
        let order = checked.order_lines(before, after, byte);
        lines.extend(order.iter().map(|line| format!("  {line}")));
    }
    lines
}

/// The reading rows whose source the answer rests on, and whether ranks or
/// location order carry it too.
struct Grounds {
    readers: Vec<usize>,
    ranked: Vec<usize>,
    is_ordered: bool,
}

impl Grounds {
    fn of(shown: &Shown) -> Grounds {
        let mut grounds = Grounds {
            readers: Vec::new(),
            ranked: Vec::new(),
            is_ordered: false,
        };
        match shown {
            Shown::Overwritten { reader, .. } => {
                grounds.readers.push(*reader);
                grounds.is_ordered = true;
            }
            Shown::Cycle { rows, edges } => {
                for (place, edge) in edges.iter().enumerate() {
                    let (row, next) = (rows[place], rows[(place + 1) % rows.len()]);
                    match edge {
                        1 => grounds.is_ordered = true,
                        2 => grounds.ranked.extend([row, next]),
                        3 => grounds.readers.push(next),
                        _ => grounds.readers.push(row),
                    }
                }
            }
            _ => (),
        }
        for rows in [&mut grounds.readers, &mut grounds.ranked] {
            rows.sort_unstable();
            rows.dedup();
        }
        grounds
    }
}

impl Grounds {
    /// What the recorder noted that the answer rests on, if it rests on any.
    fn noted(&self) -> Option<String> {
        let mut noted = Vec::new();
        if !self.readers.is_empty() {
            noted.push(format!("the source of {}", names::rows(&self.readers)));
        }
        if !self.ranked.is_empty() {
            noted.push(format!("the ranks of {}", names::rows(&self.ranked)));
        }
        if self.is_ordered {
            noted.push("the order of an agent's rows".to_string());
        }
        match noted.split_last()? {
            (last, []) => Some(last.clone()),
            (last, rest) => Some(format!("{} or {last}", rest.join(", "))),
        }
    }
}

/// What an impossible run may mean for recorder, driver and device, a
/// sentence each.
pub fn causes(checked: Checked, shown: &Shown) -> Vec<String> {
    let grounds = Grounds::of(shown);
    let Some(noted) = grounds.noted() else {
        return Vec::new();
    };
    let readers = match grounds.readers.is_empty() {
        true => "these writes".to_string(),
        false => format!("the read in {}", names::rows(&grounds.readers)),
    };
    let device = if grounds.is_ordered {
        format!("{readers} got an old value although availability and visibility had been carried that far: a cache wasn't written back or wasn't emptied")
    } else {
        format!("{readers} went by an order of the atomics that isn't one: they weren't carried out in one place after another")
    };
    // A compiler may move what neither a release nor an acquire holds.
    let orders = |row: &Row| row.is_release() || row.is_acquire();
    let has_order = checked.run.rows.iter().any(orders);
    let mut causes = vec![
        format!(
            "One of {} is wrong:",
            if has_order { "three" } else { "two" }
        ),
        format!("  the recorder, if it noted {noted} otherwise than it was"),
    ];
    if has_order {
        causes.push(format!("  the driver, if its compiler moved {readers} across a release or an acquire, or left one of those out"));
    }
    causes.push(format!("  the device, if {device}"));
    causes
}

/// Ranks that ran past their end are in order once they are counted.
pub fn counted_ranks(checked: Checked, checker: &mut dyn Judge) -> Option<String> {
    if checked.run.is_counted {
        return None;
    }
    let mut table = checked.table.to_vec();
    table[VERSION] = COUNTED_RANKS;
    let answer = checker.check(&table);
    let is_possible = matches!(answer, CheckAnswer::RaceFree | CheckAnswer::Race { .. });
    is_possible.then(|| {
        format!("The ranks may have run past 65535 and begun again at 0: in version 2, where they are counted, check answers `{answer}`.")
    })
}

/// Where a table's version stands.
const VERSION: usize = 4;

/// So many other sources are tried, and so many named.
const TRIED_SOURCES: usize = 200;
const NAMED_SOURCES: usize = 4;

/// The other sources with which the run would be possible, each checked: what
/// the recorder may have meant.
pub fn other_sources(checked: Checked, shown: &Shown, checker: &mut dyn Judge) -> Vec<String> {
    let rows = &checked.run.rows;
    let edits = Grounds::of(shown).readers.into_iter().flat_map(|reader| {
        let writers = (0..rows.len()).filter(move |writer| {
            *writer != reader
                && rows[*writer].writes()
                && rows[*writer].covers_all_bytes_of(rows[reader])
        });
        let sources = writers.map(|writer| writer as u16).chain([INITIAL]);
        sources
            .filter(move |source| *source != rows[reader].source)
            .map(move |source| Edit::new(reader, Field::Source, source))
    });
    let possible = edits.take(TRIED_SOURCES).filter_map(|edit| {
        let answer = checker.check(&edited(checked.table, &[edit]));
        let is_possible = matches!(answer, CheckAnswer::RaceFree | CheckAnswer::Race { .. });
        is_possible.then(|| {
            let source = names::source_named(edit.value);
            let reader = edit.row;
            format!("  if row {reader} read {source} (edit: {edit}), check answers `{answer}`")
        })
    });
    let lines: Vec<String> = possible.take(NAMED_SOURCES).collect();
    if lines.is_empty() {
        return lines;
    }
    let title = "The run is possible with another source:".to_string();
    std::iter::once(title).chain(lines).collect()
}
