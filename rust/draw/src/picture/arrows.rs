//! The arrows: reads-from, synchronizes-with, scoped modification order,
//! dependencies, and what the answer shows.

use super::curve::Curve;
use super::layout::Layout;
use super::legend::text_width;
use crate::markup::escaped;
use words::{edge_name, Checked, Shown};

/// An arrow from row to row.
struct Arrow {
    from: usize,
    to: usize,
    sort: &'static str,
    /// How far from the boxes' middles it starts and ends.
    shift: i32,
    label: Option<String>,
}

/// The arrows, and the labels that go above the boxes.
pub fn drawn(checked: Checked, layout: &Layout, shown: &Shown) -> (String, String) {
    let mut arrows = relations(checked, layout);
    arrows.extend(other_races(checked, layout, shown));
    arrows.extend(verdict(shown));
    let (mut curves, mut labels) = (String::new(), String::new());
    let mut taken = Vec::new();
    for arrow in &arrows {
        let places = (layout.rows.get(&arrow.from), layout.rows.get(&arrow.to));
        let (Some(from), Some(to)) = places else {
            continue;
        };
        let curve = Curve::between(from, to, arrow.shift, layout.gap);
        // A race has no direction.
        let end = if arrow.sort.starts_with("race") {
            String::new()
        } else {
            format!(" marker-end=\"url(#end-{})\"", arrow.sort)
        };
        curves += &format!(
            "<path class=\"arrow {} of-{} of-{}\" d=\"{}\"{end}><title>{}</title></path>\n",
            arrow.sort,
            arrow.from,
            arrow.to,
            curve.path(),
            escaped(&title(arrow))
        );
        if let Some(label) = &arrow.label {
            labels += &label_drawn(label, curve, layout, &mut taken);
        }
    }
    (curves, labels)
}

fn title(arrow: &Arrow) -> String {
    let (from, to) = (arrow.from, arrow.to);
    match (arrow.sort, &arrow.label) {
        (_, Some(label)) => format!("rows {from} and {to}: {label}"),
        ("reads", _) => format!("row {to} read row {from}"),
        ("synchronizes", _) => format!("row {from} synchronizes with row {to}"),
        ("depends", _) => format!("row {to} depends on row {from}"),
        (RACE_TOO, _) => format!("rows {from} and {to} race too"),
        _ => format!("row {from} is before row {to} in scoped modification order"),
    }
}

/// `taken` are the middles and widths of the labels so far.
fn label_drawn(
    label: &str,
    curve: Curve,
    layout: &Layout,
    taken: &mut Vec<(i32, i32, i32)>,
) -> String {
    let width = text_width(label) + 12;
    let (x, y) = curve.label_place(layout, taken, width);
    taken.push((x, y, width));
    format!(
        "<rect class=\"label\" x=\"{}\" y=\"{}\" width=\"{width}\" height=\"18\" rx=\"9\"/><text class=\"label\" x=\"{x}\" y=\"{}\">{}</text>\n",
        x - width / 2,
        y - 9,
        y + 4,
        escaped(label)
    )
}

/// Whether two rows are control barriers of one instance.
pub fn are_of_one_instance(checked: Checked, from: usize, to: usize) -> bool {
    let (from, to) = (checked.run.rows[from], checked.run.rows[to]);
    from.is_control_barrier() && to.is_control_barrier() && from.instance() == to.instance()
}

/// The sort of the races that the answer doesn't name; so many are drawn.
const RACE_TOO: &str = "race too";
const MOST_RACES: usize = 60;

/// The racing pairs that the answer doesn't name.
fn other_races(checked: Checked, layout: &Layout, shown: &Shown) -> Vec<Arrow> {
    let Shown::Race(goal) = shown else {
        return Vec::new();
    };
    let rows: Vec<usize> = layout.rows.keys().copied().collect();
    let firsts = rows.iter().enumerate();
    let pairs = firsts.flat_map(|(place, from)| rows[place + 1..].iter().map(|to| (*from, *to)));
    let races = pairs.filter(|(from, to)| {
        let is_named = (*from, *to) == (goal.first, goal.second);
        let mut bytes = checked.shared_bytes(*from, *to).into_iter();
        !is_named && bytes.any(|byte| checked.state.races_at(*from, *to, byte))
    });
    let arrow = |(from, to)| Arrow {
        from,
        to,
        sort: RACE_TOO,
        shift: 9,
        label: None,
    };
    races.take(MOST_RACES).map(arrow).collect()
}

fn relations(checked: Checked, layout: &Layout) -> Vec<Arrow> {
    let state = checked.state;
    let rows = checked.run.rows.len();
    let drawn = || layout.rows.keys().copied();
    let pairs = drawn().flat_map(|from| drawn().map(move |to| (from, to)));
    let mut arrows = Vec::new();
    for (from, to) in pairs {
        let mut add = |sort, shift| {
            arrows.push(Arrow {
                from,
                to,
                sort,
                shift,
                label: None,
            });
        };
        if state.read_from(to) == Some(from) {
            add("reads", -7);
        }
        // The band of an instance says it of its rows.
        if state.synchronizes_with(from, to) && !are_of_one_instance(checked, from, to) {
            add("synchronizes", 0);
        }
        let comes_between =
            |row| state.modification_order(from, row) && state.modification_order(row, to);
        // The others follow from these.
        if state.modification_order(from, to) && !(0..rows).any(comes_between) {
            add("modification", 7);
        }
        // A row that depends on itself is ordered before nothing by it.
        if state.depends(from, to) && from != to {
            add("depends", 3);
        }
    }
    arrows
}

/// What the answer shows; every second arrow runs a little higher, so that
/// two between the same rows stand apart.
fn verdict(shown: &Shown) -> Vec<Arrow> {
    let (sort, steps): (_, Vec<(usize, usize, String)>) = match shown {
        Shown::Nothing | Shown::Refused { .. } => return Vec::new(),
        Shown::Race(goal) => {
            let label = format!("race at byte {}", goal.byte);
            ("race", vec![(goal.first, goal.second, label)])
        }
        Shown::Overwritten {
            source,
            writer,
            reader,
            byte,
        } => {
            let over = format!("byte {byte} written over");
            let read = "before the read".to_string();
            let steps = vec![(*source, *writer, over), (*writer, *reader, read)];
            ("shown", steps)
        }
        Shown::Cycle { rows, edges } => {
            let nexts = rows.iter().cycle().skip(1);
            let steps = rows.iter().zip(nexts).zip(edges);
            let named = steps.map(|((from, to), edge)| {
                let label = format!("{edge} {}", edge_name(*edge));
                (*from, *to, label)
            });
            ("shown", named.collect())
        }
    };
    let arrow = |(place, (from, to, label)): (usize, (usize, usize, String))| Arrow {
        from,
        to,
        sort,
        shift: if place % 2 == 0 { 4 } else { -12 },
        label: Some(label),
    };
    steps.into_iter().enumerate().map(arrow).collect()
}
