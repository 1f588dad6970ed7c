//! The columns, the rows' boxes and their moments.

use super::layout::{Layout, Place, EDGE, LINE, MOMENT, TOP};
use crate::markup::escaped;
use mend::Run;
use second::table::Row;
use words::show::place_words;
use words::{Describe, Shown};

/// The line on which each agent's rows stand.
pub fn lanes(layout: &Layout) -> String {
    let bottom = layout.height - EDGE;
    let lane = |middle| {
        format!(
            "<path class=\"lane\" d=\"M{middle} {} V{bottom}\"/>\n",
            TOP - 14
        )
    };
    middles(layout).map(|(_, middle)| lane(middle)).collect()
}

/// Each agent and the middle of its column.
fn middles(layout: &Layout) -> impl Iterator<Item = (usize, i32)> + '_ {
    let agents = layout.agents.iter().enumerate();
    agents.map(|(column, agent)| (*agent, layout.column_x(column) + layout.column / 2))
}

/// Each agent's name, again and again, and its places.
pub fn agents(run: &Run, layout: &Layout) -> String {
    let mut svg = String::new();
    for (agent, middle) in middles(layout) {
        let mut name = run.agent_name(agent as u8);
        if let Some(Some(given)) = run.notes.agents.get(agent) {
            name += &format!(", {}", escaped(given));
        }
        for y in &layout.bands {
            svg += &format!("<text class=\"agent\" x=\"{middle}\" y=\"{y}\">{name}</text>\n");
        }
        svg += &format!(
            "<text class=\"places\" x=\"{middle}\" y=\"{}\">{}</text>\n",
            TOP - 26,
            if layout.is_narrow {
                run.agents[agent].map(|number| number.to_string()).join(".")
            } else {
                place_words(run.agents[agent])
            }
        );
    }
    svg
}

/// The rows' boxes, those that the answer shows set off.
pub fn rows(run: &Run, layout: &Layout, shown: &Shown) -> String {
    let pointed = shown.rows();
    let mut svg = String::new();
    for (row, place) in &layout.rows {
        let class = class(run.rows[*row], pointed.contains(row));
        svg += &format!(
            "<g class=\"{class} of-{row}\" id=\"box-{row}\"><a href=\"#box-{row}\"><title>{}</title>\n",
            escaped(&run.described_in_full(*row))
        );
        if !layout.is_packed {
            svg += &number(*row, place);
        }
        svg += &drawn(place, "box");
        svg += "</a></g>\n";
    }
    for place in &layout.new {
        svg += "<g class=\"row missing\"><title>a row that is missing</title>\n";
        svg += &drawn(place, "ghost");
        svg += "</g>\n";
    }
    svg
}

/// A row's number, at the left of all.
fn number(row: usize, place: &Place) -> String {
    format!(
        "<text class=\"number\" x=\"{}\" y=\"{}\">{row}</text>\n",
        EDGE + 20,
        place.middle() + 4
    )
}

fn class(row: Row, is_shown: bool) -> String {
    let kind = if row.is_plain() {
        "plain"
    } else if row.is_atomic() {
        "atomic"
    } else if row.is_queue_operation() {
        "operation"
    } else {
        "barrier"
    };
    let shown = if is_shown { " pointed" } else { "" };
    format!("row {kind}{shown}")
}

/// A box of a class, its lines and its moments; what is missing of them last.
fn drawn(place: &Place, class: &str) -> String {
    let Place {
        x,
        y,
        width,
        height,
        ..
    } = *place;
    let mut svg = format!(
        "<rect class=\"{class}\" x=\"{x}\" y=\"{y}\" width=\"{width}\" height=\"{height}\" rx=\"5\"/>\n"
    );
    let there = place.lines.len() - place.lacks;
    for (number, line) in place.lines.iter().enumerate() {
        let weight = match number {
            _ if number >= there => "lacks",
            0 => "first",
            _ => "more",
        };
        svg += &format!(
            "<text class=\"{weight}\" x=\"{}\" y=\"{}\">{}</text>\n",
            x + 10,
            y + place.padding - 3 + LINE * (number as i32 + 1),
            escaped(line)
        );
    }
    svg += &moment(place.before.as_ref(), place, y - place.moment);
    svg += &moment(place.after.as_ref(), place, y + height);
    svg
}

/// A moment; a low one has no words.
fn moment(name: Option<&(String, bool)>, place: &Place, y: i32) -> String {
    let Some((name, is_missing)) = name else {
        return String::new();
    };
    let sort = match is_missing {
        true => "ghost",
        false => name.split(',').next().unwrap_or_default(),
    };
    let (x, width, height) = (place.x + 4, place.width - 8, place.moment);
    let mut svg = format!(
        "<rect class=\"moment {sort}\" x=\"{x}\" y=\"{y}\" width=\"{width}\" height=\"{height}\" rx=\"3\"/>"
    );
    if height == MOMENT {
        let class = if *is_missing {
            "moment lacks"
        } else {
            "moment"
        };
        let missing = if *is_missing { "missing: " } else { "" };
        svg += &format!(
            "<text class=\"{class}\" x=\"{}\" y=\"{}\">{missing}{}</text>",
            place.x + place.width / 2,
            y + 12,
            escaped(name)
        );
    }
    svg + "\n"
}
