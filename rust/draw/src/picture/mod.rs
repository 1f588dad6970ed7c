//! `draw`: a run as a picture. Agents are columns, rows stand below each
//! other in the table's order, and arrows say what read, synchronized with
//! or came after what. Of many rows each column is packed by itself. What is
//! missing is a dashed ghost in the colour of the race.

mod arrows;
mod bands;
mod boxes;
mod curve;
mod ghost;
mod layout;
mod legend;
mod matter;
mod style;

use crate::markup::escaped;
use ghost::Ghosts;
use layout::{Layout, EDGE, TOP};
use mend::Cure;
use stramashly::OwnedCheckAnswer;
use words::{headline, names, Checked, Shown};

/// Room for labels beside arrows of the last column.
const LABEL_ROOM: i32 = 110;
/// A letter of the headline in the widest of its fonts, rounded up.
const HEADLINE_LETTER: i32 = 13;

/// The picture as an SVG document of its own: of a large run the rows that
/// matter, unless all are wanted. What the first change would add is drawn as
/// missing.
pub fn picture(
    checked: Checked,
    answer: &OwnedCheckAnswer,
    (shown, cure): (&Shown, Option<&Cure>),
    is_all: bool,
) -> String {
    let ghosts = Ghosts::of(checked.run, cure);
    let rows = matter::rows(checked, shown, &ghosts, is_all);
    let mut layout = Layout::of(checked, &rows, &ghosts);
    if !shown.rows().is_empty() {
        layout.width += LABEL_ROOM;
    }
    let headline = headline(shown);
    layout.width = layout
        .width
        .max(2 * EDGE + headline.chars().count() as i32 * HEADLINE_LETTER);
    let drawn = drawn(checked, &layout, shown);
    let legend = legend::entries(&drawn, shown);
    let (width, height) = (
        layout.width,
        layout.height + legend::height(&legend, layout.width),
    );
    let mut svg = head(
        &headline,
        &answer.to_string(),
        &counted(checked, &rows),
        (width, height),
    );
    svg += &format!("<style>\n{}</style>\n", style::lights(".run", &rows));
    svg += &drawn;
    svg += &legend::drawn(&legend, &layout);
    svg + "</svg>\n"
}

/// The document's beginning: what it is, its colours and the headline.
fn head(headline: &str, answer: &str, count: &str, (width, height): (i32, i32)) -> String {
    let [headline, answer, count] = [headline, answer, count].map(escaped);
    let mut svg = format!(
        "<svg xmlns=\"http://www.w3.org/2000/svg\" class=\"run\" role=\"graphics-document\" aria-labelledby=\"run-title run-desc\" width=\"{width}\" height=\"{height}\" viewBox=\"0 0 {width} {height}\">\n"
    );
    svg += &format!("<title id=\"run-title\">{headline}</title>\n");
    svg += &format!(
        "<desc id=\"run-desc\">Agents are columns, rows stand below each other in the table&#39;s order, arrows go from row to row. {count}. The answer: {answer}.</desc>\n"
    );
    svg += &format!("<style>\n{}</style>\n", style::SHEET);
    svg += &style::markers();
    svg += &format!("<rect class=\"ground\" width=\"{width}\" height=\"{height}\"/>\n");
    svg += &format!(
        "<text class=\"verdict\" x=\"{EDGE}\" y=\"{}\">{headline}</text>\n<text class=\"answer\" x=\"{EDGE}\" y=\"{}\">{answer}. {count}.</text>\n",
        TOP - 80,
        TOP - 62
    );
    svg
}

/// How many rows there are, and how many of them are drawn.
fn counted(checked: Checked, rows: &[usize]) -> String {
    let all = checked.run.rows.len();
    let agents = names::counted(checked.run.agents.len(), "agent");
    if rows.len() == all {
        return format!("{agents}, {}", names::counted(all, "row"));
    }
    format!(
        "{agents}; {} of {all} rows are drawn, the others with --all",
        rows.len()
    )
}

/// All but the frame, the headline and the legend.
fn drawn(checked: Checked, layout: &Layout, shown: &Shown) -> String {
    let mut svg = boxes::lanes(layout);
    svg += &bands::drawn(checked.run, layout);
    let (below, labels) = arrows::drawn(checked, layout, shown);
    svg += &below;
    svg += &boxes::agents(checked.run, layout);
    svg += &boxes::rows(checked.run, layout, shown);
    svg + &labels
}
