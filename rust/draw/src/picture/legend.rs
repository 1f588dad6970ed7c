//! The legend, below the rows.

use super::layout::{Layout, EDGE};
use words::Shown;

/// A sample and what it stands for.
pub struct Entry {
    sample: Sample,
    words: &'static str,
}

enum Sample {
    /// An arrow of this sort.
    Arrow(&'static str),
    /// A box of this class inside rows of a kind.
    Box(&'static str, &'static str),
    /// A band across agents.
    Band,
}

const HEIGHT: i32 = 26;
const SAMPLE: i32 = 44;

/// The width of a text, near enough to lay things out.
pub fn text_width(text: &str) -> i32 {
    text.chars().count() as i32 * 7
}

/// The entries for what occurs among the drawn things.
pub fn entries(drawn: &str, shown: &Shown) -> Vec<Entry> {
    let arrows = [
        ("reads", "read from"),
        ("synchronizes", "synchronizes with"),
        ("modification", "scoped modification order"),
        ("depends", "dependency"),
        ("race too", "races too"),
    ];
    let boxes = [
        ("row plain", "box", "plain"),
        ("row atomic", "box", "atomic"),
        ("row barrier", "box", "barrier"),
        ("row operation", "box", "operation of a queue"),
        ("row", "moment available", "availability moment"),
        ("row", "moment visible", "visibility moment"),
    ];
    let has = |class: &str| drawn.contains(&format!("class=\"{class}"));
    let arrow = |sort, words| Entry {
        sample: Sample::Arrow(sort),
        words,
    };
    let mut entries = Vec::new();
    for (sort, words) in arrows {
        if has(&format!("arrow {sort} of-")) {
            entries.push(arrow(sort, words));
        }
    }
    for (row, class, words) in boxes {
        let sought = if class == "box" { row } else { class };
        if has(sought) {
            entries.push(Entry {
                sample: Sample::Box(row, class),
                words,
            });
        }
    }
    if has("moment ghost") || has("ghost") || has("lacks") {
        entries.push(Entry {
            sample: Sample::Box("row", "ghost"),
            words: "missing, by the first change",
        });
    }
    if has("band") {
        entries.push(Entry {
            sample: Sample::Band,
            words: "agents meet in a control barrier",
        });
    }
    match shown {
        Shown::Race(_) => entries.push(arrow("race", "race: no order either way")),
        Shown::Overwritten { .. } => entries.push(arrow("shown", "overwritten: location order")),
        Shown::Cycle { .. } => entries.push(arrow("shown", "cycle: each before the next")),
        Shown::Nothing | Shown::Refused { .. } => (),
    }
    entries
}

/// Where each entry stands, line by line.
fn places(entries: &[Entry], width: i32) -> Vec<(i32, i32)> {
    let (mut x, mut y) = (EDGE, 0);
    let mut places = Vec::new();
    for entry in entries {
        let wide = SAMPLE + text_width(entry.words) + 30;
        if x > EDGE && x + wide > width - EDGE {
            (x, y) = (EDGE, y + HEIGHT);
        }
        places.push((x, y));
        x += wide;
    }
    places
}

pub fn height(entries: &[Entry], width: i32) -> i32 {
    let last = places(entries, width).last().map_or(0, |(_, y)| *y);
    last + HEIGHT + EDGE
}

pub fn drawn(entries: &[Entry], layout: &Layout) -> String {
    let mut svg = "<g class=\"legend\">\n".to_string();
    for (entry, (x, y)) in entries.iter().zip(places(entries, layout.width)) {
        let y = y + layout.height;
        svg += &match entry.sample {
            Sample::Arrow(sort) => {
                let end = if sort.starts_with("race") {
                    String::new()
                } else {
                    format!(" marker-end=\"url(#end-{sort})\"")
                };
                format!(
                    "<path class=\"arrow {sort}\" d=\"M{x} {} h{}\"{end}/>",
                    y + 8,
                    SAMPLE - 10
                )
            }
            Sample::Band => format!(
                "<path class=\"band\" d=\"M{x} {} h{}\"/>",
                y + 8,
                SAMPLE - 10
            ),
            Sample::Box(row, class) => format!(
                "<g class=\"{row}\"><rect class=\"{class}\" x=\"{x}\" y=\"{y}\" width=\"{}\" height=\"16\" rx=\"3\"/></g>",
                SAMPLE - 10
            ),
        };
        svg += &format!(
            "<text class=\"more\" x=\"{}\" y=\"{}\">{}</text>\n",
            x + SAMPLE,
            y + 12,
            entry.words
        );
    }
    svg + "</g>\n"
}
