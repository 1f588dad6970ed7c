//! Where each agent's column and each row's box stands.

use super::ghost::{Ghosts, Lack};
use super::matter::WHOLE;
use mend::Run;
use second::table::{Row, ATOMIC_RMW, RELAXED};
use second::{AFTER, BEFORE};
use std::collections::BTreeMap;
use words::{names, Checked};

/// Space around the picture.
pub const EDGE: i32 = 24;
/// Where the first row may begin.
pub const TOP: i32 = 104;
/// Space between columns, for arrows, and where there are many columns.
const GAP: i32 = 120;
const NARROW_GAP: i32 = 56;
pub const LINE: i32 = 15;
/// Height of an availability or visibility moment.
pub const MOMENT: i32 = 16;
const PADDING: i32 = 6;
const BETWEEN: i32 = 14;
/// The same where rows are packed: at most 40 in all for a row.
const PACKED_MOMENT: i32 = 6;
const PACKED_PADDING: i32 = 3;
const PACKED_BETWEEN: i32 = 5;
const LEAST_WIDTH: i32 = 640;
const LEAST_COLUMN: i32 = 200;
const NARROW_COLUMN: i32 = 150;
const NARROW_LETTERS: usize = 20;
/// More columns than this are narrow.
const WIDE_COLUMNS: usize = 5;
/// After so many rows the agents' names are written again.
const BAND_ROWS: usize = 16;
const BAND: i32 = 30;

/// A row's box, its moments aside.
#[derive(Clone, Debug)]
pub struct Place {
    pub x: i32,
    pub y: i32,
    pub width: i32,
    pub height: i32,
    pub lines: Vec<String>,
    /// What the moments before and after the row are called, and whether they
    /// are missing.
    pub before: Option<(String, bool)>,
    pub after: Option<(String, bool)>,
    /// What else the row lacks, the last lines of its box.
    pub lacks: usize,
    /// Height of a moment, and the room above and below the lines.
    pub moment: i32,
    pub padding: i32,
}

impl Place {
    pub fn right(&self) -> i32 {
        self.x + self.width
    }

    pub fn middle(&self) -> i32 {
        self.y + self.height / 2
    }

    /// From the moment before to the moment after.
    pub fn outer(&self) -> (i32, i32) {
        let top = self.y - self.before.as_ref().map_or(0, |_| self.moment);
        let bottom = self.y + self.height + self.after.as_ref().map_or(0, |_| self.moment);
        (top, bottom)
    }

    pub fn contains(&self, x: i32, y: i32, room: (i32, i32)) -> bool {
        let (top, bottom) = self.outer();
        self.x - room.0 < x && x < self.right() + room.0 && top - room.1 < y && y < bottom + room.1
    }
}

/// The places of the rows that are drawn, and the size of it all without the
/// legend.
pub struct Layout {
    pub rows: BTreeMap<usize, Place>,
    /// The rows that are missing.
    pub new: Vec<Place>,
    /// The agents that have a column: those with rows.
    pub agents: Vec<usize>,
    /// Whether columns and texts are narrow.
    pub is_narrow: bool,
    /// Whether each agent's rows follow each other closely, in short.
    pub is_packed: bool,
    /// Width of a column, and the space between two.
    pub column: i32,
    pub gap: i32,
    /// Where the agents' names stand.
    pub bands: Vec<i32>,
    pub width: i32,
    pub height: i32,
}

impl Layout {
    pub fn of(checked: Checked, rows: &[usize], ghosts: &Ghosts) -> Layout {
        let run = checked.run;
        let has_rows = |agent: &usize| {
            let mut rows = rows.iter();
            rows.any(|row| usize::from(run.rows[*row].agent) == *agent)
        };
        let agents: Vec<usize> = (0..run.agents.len()).filter(has_rows).collect();
        let is_narrow = agents.len() > WIDE_COLUMNS;
        let is_packed = rows.len() > WHOLE;
        let mut layout = Layout {
            column: 0,
            gap: if is_narrow { NARROW_GAP } else { GAP },
            is_narrow,
            is_packed,
            width: 0,
            height: TOP,
            rows: BTreeMap::new(),
            new: Vec::new(),
            bands: vec![TOP - 42],
            agents,
        };
        layout.column = layout.column_width(run, rows, ghosts);
        let past_last = layout.column_x(layout.agents.len());
        layout.width = LEAST_WIDTH.max(past_last + EDGE);
        if is_packed {
            layout.pack(checked, rows, ghosts);
        } else {
            layout.stack(checked, rows, ghosts);
        }
        layout.height += EDGE;
        layout
    }

    /// One row below the other, in the table's order.
    fn stack(&mut self, checked: Checked, rows: &[usize], ghosts: &Ghosts) {
        for number in rows {
            self.push_new(ghosts, |place| place <= *number);
            let count = self.rows.len();
            if count > 0 && count.is_multiple_of(BAND_ROWS) {
                self.bands.push(self.height + BAND / 2);
                self.height += BAND;
            }
            let place = self.place(checked, *number, ghosts, self.height);
            self.height = place.outer().1 + BETWEEN;
            self.rows.insert(*number, place);
        }
        self.push_new(ghosts, |_| true);
    }

    /// The missing rows that come before a row and aren't there yet.
    fn push_new(&mut self, ghosts: &Ghosts, comes: impl Fn(usize) -> bool) {
        let next = self.new.len();
        let has_column = |row: &Row| self.agents.contains(&usize::from(row.agent));
        let new = ghosts.new.iter().filter(|(_, row)| has_column(row));
        let mut places: Vec<&(usize, Row)> = new.collect();
        places.sort_by_key(|(place, _)| *place);
        for (_, row) in places
            .into_iter()
            .skip(next)
            .filter(|(place, _)| comes(*place))
        {
            let lines = new_lines(*row, self.is_narrow);
            let place = Place {
                x: self.column_x(self.column_of(row.agent)),
                y: self.height,
                width: self.column,
                height: lines.len() as i32 * LINE + 2 * PADDING,
                lacks: lines.len(),
                lines,
                before: None,
                after: None,
                moment: MOMENT,
                padding: PADDING,
            };
            self.height = place.outer().1 + BETWEEN;
            self.new.push(place);
        }
    }

    /// Each agent's rows below each other, whatever the others do; those of one
    /// control barrier side by side.
    fn pack(&mut self, checked: Checked, rows: &[usize], ghosts: &Ghosts) {
        let mut columns: Vec<Vec<usize>> = vec![Vec::new(); self.agents.len()];
        for row in rows.iter().rev() {
            let agent = checked.run.rows[*row].agent;
            columns[self.column_of(agent)].push(*row);
        }
        let mut ends = vec![TOP; columns.len()];
        while let Some(next) = next_rows(checked.run, &columns) {
            let tops = next.iter().map(|row| {
                let column = self.column_of(checked.run.rows[*row].agent);
                let place = self.place(checked, *row, ghosts, 0);
                // The boxes stand side by side, whatever moments they have.
                ends[column] + place.y
            });
            let top = tops.max().unwrap_or(TOP);
            for row in next {
                let column = self.column_of(checked.run.rows[row].agent);
                let mut place = self.place(checked, row, ghosts, 0);
                place.y = top;
                ends[column] = place.outer().1 + PACKED_BETWEEN;
                columns[column].pop();
                self.rows.insert(row, place);
            }
        }
        self.height = ends.into_iter().max().unwrap_or(TOP);
    }

    fn column_of(&self, agent: u8) -> usize {
        let agents = self.agents.iter();
        let before = agents.take_while(|other| **other < usize::from(agent));
        before.count()
    }

    /// A row's box, its moment before it from this height on.
    fn place(&self, checked: Checked, number: usize, ghosts: &Ghosts, top: i32) -> Place {
        let lack = ghosts.rows.get(&number).cloned().unwrap_or_default();
        let mut lines = self.lines(checked.run, number);
        let lacking = self.lacking(&lack);
        let lacks = lacking.len();
        lines.extend(lacking);
        let found = |place| moment(checked, number, place).map(|name| (name, false));
        let before = found(BEFORE).or(lack.before.map(|name| (name, true)));
        let after = found(AFTER).or(lack.after.map(|name| (name, true)));
        let (moment, padding) = match self.is_packed {
            true => (PACKED_MOMENT, PACKED_PADDING),
            false => (MOMENT, PADDING),
        };
        let column = self.column_of(checked.run.rows[number].agent);
        Place {
            x: self.column_x(column),
            y: top + before.as_ref().map_or(0, |_| moment),
            width: self.column,
            height: lines.len() as i32 * LINE + 2 * padding,
            lines,
            before,
            after,
            lacks,
            moment,
            padding,
        }
    }

    /// What stands in a row's box: in short lines where columns are narrow, in
    /// short or in one line where they are packed.
    fn lines(&self, run: &Run, number: usize) -> Vec<String> {
        match (self.is_packed, self.is_narrow) {
            (true, true) => broken(&short_line(run, number)),
            (true, false) => vec![short_line(run, number)],
            (false, is_narrow) => lines(run, number, is_narrow),
        }
    }

    /// What else a row lacks, the last lines of its box.
    fn lacking(&self, lack: &Lack) -> Vec<String> {
        if lack.words.is_empty() {
            return Vec::new();
        }
        let line = format!("missing: {}", lack.words.join(", "));
        match self.is_narrow {
            true => broken(&line),
            false => vec![line],
        }
    }

    /// Wide enough for every box's text, whose first line is bold.
    fn column_width(&self, run: &Run, rows: &[usize], ghosts: &Ghosts) -> i32 {
        let new = ghosts
            .new
            .iter()
            .map(|(_, row)| new_lines(*row, self.is_narrow));
        let boxes = rows.iter().map(|number| {
            let lack = ghosts.rows.get(number);
            let mut lines = self.lines(run, *number);
            lines.extend(lack.into_iter().flat_map(|lack| self.lacking(lack)));
            lines
        });
        let widths = boxes.chain(new).flat_map(|lines| {
            let lines = lines.into_iter().enumerate();
            lines.map(|(place, line)| {
                let letters = line.chars().count() as i32;
                let tenths = if place == 0 { 76 } else { 69 };
                letters * tenths / 10 + 24
            })
        });
        let least = if self.is_narrow {
            NARROW_COLUMN
        } else {
            LEAST_COLUMN
        };
        widths.max().unwrap_or(0).max(least)
    }

    /// The left side of a column; row numbers stand to the left of all.
    pub fn column_x(&self, column: usize) -> i32 {
        EDGE + 36 + column as i32 * (self.column + self.gap)
    }
}

/// The rows to be packed next, of columns whose last row comes first: all of a
/// control barrier once each of its agents has come to it, or else one. Where
/// agents come to barriers in different orders, one that waits goes on alone.
fn next_rows(run: &Run, columns: &[Vec<usize>]) -> Option<Vec<usize>> {
    let heads: Vec<usize> = columns
        .iter()
        .filter_map(|rows| rows.last())
        .copied()
        .collect();
    let instance = |row: usize| {
        let row = run.rows[row];
        row.is_control_barrier().then(|| row.instance())
    };
    let ready = heads.iter().find_map(|head| {
        let Some(met) = instance(*head) else {
            return Some(vec![*head]);
        };
        let all = columns
            .iter()
            .flatten()
            .filter(|row| instance(**row) == Some(met));
        let all: Vec<usize> = all.copied().collect();
        all.iter().all(|row| heads.contains(row)).then_some(all)
    });
    ready.or_else(|| heads.first().map(|head| vec![*head]))
}

/// A row's number, and its label if it has one.
fn labelled(run: &Run, number: usize) -> String {
    match run.notes.label(number) {
        Some(label) => format!("{number} {label}:"),
        None => number.to_string(),
    }
}

/// A row in one line; its tooltip has all of it.
fn short_line(run: &Run, number: usize) -> String {
    let row = run.rows[number];
    let mut line = format!("{} ", labelled(run, number));
    line += &match row.kind {
        ATOMIC_RMW => "rmw".to_string(),
        kind => names::kind(kind)
            .replace("plain ", "")
            .replace(" operation", "")
            .replace(" from", ", from"),
    };
    if row.is_control_barrier() {
        line += &format!(", {}", row.instance());
    }
    if row.is_access() {
        let bytes = names::bytes(row).replace(" to ", "\u{2013}");
        line += &format!(", {bytes}");
    }
    if !row.is_plain() && row.order != RELAXED {
        line += [", acquire", ", release", ", acq-rel"][usize::from(row.order.min(3)) - 1];
    }
    line
}

/// What stands in the box of a row that is missing.
fn new_lines(row: Row, is_narrow: bool) -> Vec<String> {
    let kind = names::kind(row.kind);
    let mut lines = match is_narrow {
        true => vec!["missing:".to_string(), kind],
        false => vec![format!("missing: {kind}")],
    };
    if !row.is_plain() && !row.is_queue_operation() {
        let (order, scope) = (names::order(row.order), names::scope(row.scope));
        lines.push(format!("{order}, {scope}"));
    }
    if !is_narrow {
        return lines;
    }
    lines.iter().flat_map(|line| broken(line)).collect()
}

/// What stands in a row's box, in short lines where columns are narrow.
fn lines(run: &Run, number: usize, is_narrow: bool) -> Vec<String> {
    let mut lines = wide_lines(run, number);
    if let Some(place) = run.notes.place(number) {
        lines.push(format!("@ {}", place.short()));
    }
    if !is_narrow {
        return lines;
    }
    lines.iter().flat_map(|line| broken(line)).collect()
}

/// A line broken at its commas where it would be too long.
fn broken(line: &str) -> Vec<String> {
    let mut lines: Vec<String> = Vec::new();
    for part in line.split(", ") {
        match lines.last_mut() {
            Some(last) if last.chars().count() + part.chars().count() < NARROW_LETTERS => {
                *last += ", ";
                *last += part;
            }
            _ => lines.push(part.to_string()),
        }
    }
    lines
}

/// What stands in a row's box.
fn wide_lines(run: &Run, number: usize) -> Vec<String> {
    let row = run.rows[number];
    let kind = names::kind(row.kind);
    let number = labelled(run, number);
    if row.is_queue_operation() {
        return operation_lines(&number, &kind);
    }
    let has_no_order = row.is_plain() || row.is_control_barrier() && row.order == RELAXED;
    let mut lines = vec![if has_no_order {
        format!("{number}  {kind}")
    } else {
        format!("{number}  {kind}, {}", names::order(row.order))
    }];
    if row.is_access() {
        let bytes = names::byte_words(row).replace(" to ", "\u{2013}");
        let class = names::class(row.class);
        lines.push(format!("{bytes}, {}, {class}", reference(run, row)));
    }
    if row.is_control_barrier() {
        let execution = names::scope(row.execution_scope());
        lines.push(format!("instance {}, {execution}", row.instance()));
    }
    lines.extend(semantics_lines(row));
    lines
}

/// Privacy, or classes and scope.
fn semantics_lines(row: Row) -> Vec<String> {
    let scope = names::scope(row.scope);
    let classes = names::classes(row.classes);
    if row.is_plain() {
        let private = (!row.is_non_private()).then(|| "private".to_string());
        return private.into_iter().collect();
    }
    if row.is_control_barrier() && row.order == RELAXED {
        return vec!["execution only".to_string()];
    }
    match row.classes.count_ones() {
        0 => vec![format!("{scope} scope")],
        1 | 2 => vec![format!("{classes}, {scope}")],
        // Many classes need a line of their own.
        _ => vec![classes, format!("{scope} scope")],
    }
}

/// A reference's name, or its number.
fn reference(run: &Run, row: Row) -> String {
    match run.notes.references.get(&row.reference) {
        Some(name) => name.clone(),
        None => format!("ref {}", row.reference),
    }
}

/// A queue's operation is its kind, in two lines where it is long.
fn operation_lines(number: &str, kind: &str) -> Vec<String> {
    match kind.split_once("operation from ") {
        Some((what, between)) => vec![
            format!("{number}  {what}operation"),
            format!("from {between}"),
        ],
        None => vec![format!("{number}  {kind}")],
    }
}

/// What a row's moment before or after it is called, if it has one.
fn moment(checked: Checked, row: usize, place: usize) -> Option<String> {
    let moment = 3 * row + place;
    let word = if checked.state.is_availability_moment(moment) {
        "available"
    } else if checked.state.is_visibility_moment(moment) {
        "visible"
    } else {
        return None;
    };
    let scope = names::scope(checked.run.rows[row].scope);
    Some(format!("{word}, {scope}"))
}
