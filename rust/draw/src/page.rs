//! `explain --html`: the picture, the sentences and the table on one page
//! that needs no other file. It is well-formed as XML too. Pointing at a row, or
//! choosing it, lights its box, its arrows, its sentences and its line of the
//! table, by the style sheet alone.

use crate::markup::escaped;
use crate::picture::picture;
use mend::{Relations, Run};
use words::show::{agent_lines, cells, columns, dependency_lines, header};
use words::{headline, mentioned, named, race_free, Checked, Explanation, Shown};

const SHEET: &str = "\
:root { color-scheme: light dark; --lit: #fdf0d0; }
body { margin: 0; font: 16px/1.5 system-ui, 'Segoe UI', 'DejaVu Sans', sans-serif; color: #1b1f24; background: #ffffff; }
main { max-width: 72rem; margin: 0 auto; padding: 1.5rem; }
h1 { margin: 0 0 1rem; font-size: 1.6rem; }
h2 { margin: 2rem 0 0.5rem; font-size: 1.2rem; }
p { margin: 0.3rem 0; max-width: 60rem; }
code { padding: 0 0.25em; border-radius: 3px; background: #eef0f2; }
.in-1 { margin-left: 1.5rem; }
.in-2 { margin-left: 2.5rem; }
.in-3 { margin-left: 3.5rem; }
.wide { overflow-x: auto; margin: 1rem 0; border: 1px solid #c3c9d1; border-radius: 6px; }
table { border-collapse: collapse; font-size: 14px; white-space: nowrap; }
th, td { padding: 0.25rem 0.7rem; text-align: left; border-bottom: 1px solid #dfe3e8; }
tr.pointed td, tr.pointed th, tr:target td, tr:target th { background: #fde8e6; }
caption { padding: 0.25rem 0.7rem; text-align: left; color: #57606a; }
tbody th { font-weight: normal; }
a { color: inherit; }
p, tr { border-radius: 3px; }
summary { margin: 1rem 0 0.3rem; cursor: pointer; font-weight: bold; }
footer { margin-top: 2rem; color: #57606a; font-size: 14px; }
svg { display: block; }
@media (prefers-color-scheme: dark) {
:root { --lit: #4a3a12; }
body { color: #e6e9ed; background: #12151a; }
code { background: #2a2f37; }
.wide { border-color: #454c56; }
th, td { border-color: #333a43; }
tr.pointed td, tr.pointed th, tr:target td, tr:target th { background: #4a1f1c; }
caption, footer { color: #a3acb8; }
}
@media print {
main { max-width: none; padding: 0; }
.wide { overflow: visible; border: 0; }
svg { max-width: 100%; height: auto; }
}
";

/// The page of a table and its explanation; of a large run the picture has the
/// rows that matter, unless all are wanted.
pub fn page(table: &[u8], explanation: &Explanation, is_all: bool) -> String {
    let answer = escaped(&explanation.answer.to_string());
    let headline = escaped(&headline(&explanation.shown));
    let relations = Relations::of(explanation.chains, table, &explanation.notes);
    let checked = Checked::from(&relations);
    let run = checked.run;
    let lights = lights(run.rows.len());
    let mut html = format!(
        "<!DOCTYPE html>\n<html lang=\"en\" xmlns=\"http://www.w3.org/1999/xhtml\">\n<head>\n<meta charset=\"utf-8\"/>\n<meta name=\"viewport\" content=\"width=device-width, initial-scale=1\"/>\n<title>{headline}</title>\n<style>\n{SHEET}{lights}</style>\n</head>\n<body>\n<main>\n<h1>{headline}</h1>\n<p><code>{answer}</code></p>\n"
    );
    html += &picture_part(checked, explanation, is_all);
    for line in &explanation.lines {
        html += &paragraph(line, run.rows.len());
    }
    html += &pairs_part(checked, explanation);
    html += &table_part(table, run, explanation);
    html += "<footer><p>The first line is the answer of the proved checker, and the steps from moment to moment are derivations that the proved library found and accepted. All else, the words, the table and the picture, comes from a second implementation, which is tested and not proved.</p></footer>\n";
    html + "</main>\n</body>\n</html>\n"
}

/// Rules by which pointing at a row, or choosing it, lights its box, its
/// sentences and its line of the table.
fn lights(rows: usize) -> String {
    let rule = |row: usize| {
        let chosen = format!("main:has(.of-{row}:hover, #row-{row}:target, #box-{row}:target)");
        format!("{chosen} :is(p:has(.of-{row}), tr.of-{row}) {{ background: var(--lit); }}\n{chosen} .of-{row} .box {{ stroke: #d97706; stroke-width: 3; }}\n{chosen} .arrow[class*=of-]:not(.of-{row}) {{ opacity: 0.2; }}\n")
    };
    (0..rows).map(rule).collect()
}

/// A line as a paragraph, as far in as the line is; what stands between
/// backticks, and an edit, is code, and so many rows are linked to the table.
fn paragraph(line: &str, rows: usize) -> String {
    let text = line.trim_start();
    let depth = (line.len() - text.len()).div_ceil(2).min(3);
    let class = match depth {
        0 => String::new(),
        _ => format!(" class=\"in-{depth}\""),
    };
    let text = match text.split_once("edit: ") {
        Some(("", edits)) => format!("edit: <code>{}</code>", escaped(edits)),
        _ => with_code(text, rows),
    };
    format!("<p{class}>{text}</p>\n")
}

/// A sentence that names more rows than this is a list and has no links.
const MOST_LINKS: usize = 12;

fn with_code(text: &str, rows: usize) -> String {
    let rows = match mentioned(text).len() > MOST_LINKS {
        true => 0,
        false => rows,
    };
    let parts = text.split('`').enumerate();
    parts
        .map(|(place, part)| match place % 2 {
            0 => linked(part, rows),
            _ => format!("<code>{}</code>", escaped(part)),
        })
        .collect()
}

/// The text with the numbers after `row` and `rows` linked to the table's
/// rows, each with a class by which it can be found. New rows aren't there.
fn linked(text: &str, rows: usize) -> String {
    let mut html = String::new();
    // Whether a number here is a row's, and whether more may follow.
    let (mut is_row, mut is_list, mut is_new) = (false, false, false);
    // What is noted of a row stands in brackets, and the list goes on after it.
    let mut is_note = false;
    for word in text.split_inclusive(' ') {
        let bare = word.trim_end_matches(' ').trim_start_matches('(');
        let is_name = matches!(bare, "row" | "Row" | "rows" | "Rows");
        is_note |= word.starts_with('(') && is_list && !is_name;
        if is_note {
            html += &escaped(word);
            is_note = !bare.trim_end_matches(',').ends_with(')');
            continue;
        }
        let digits = bare.find(|letter: char| !letter.is_ascii_digit());
        let digits = &bare[..digits.unwrap_or(bare.len())];
        let number = digits.parse::<usize>().ok().filter(|row| *row < rows);
        match number {
            Some(row) if is_row => {
                let rest = escaped(&word[digits.len()..]);
                html += &format!("<a class=\"of-{row}\" href=\"#row-{row}\">{digits}</a>{rest}");
                is_row = is_list && (bare.ends_with(',') || bare == digits);
            }
            _ => {
                html += &escaped(word);
                is_list = bare.ends_with('s') && is_name || is_list && bare == "and";
                is_row = is_name && !is_new || is_list && is_row;
            }
        }
        is_new = bare == "new";
    }
    html
}

/// The picture, unless the table is refused.
fn picture_part(checked: Checked, explanation: &Explanation, is_all: bool) -> String {
    if let Shown::Refused { .. } = explanation.shown {
        return String::new();
    }
    let shown = (&explanation.shown, explanation.cures.first());
    let svg = picture(checked, &explanation.answer, shown, is_all);
    let area = scroll_area("The run as a picture");
    format!("{area}{svg}</div>\n")
}

/// So many lines of pairs and steps are put on a page; more are told in short.
const MOST_STEPS: usize = 400;

/// The pairs of a race-free run, folded up.
fn pairs_part(checked: Checked, explanation: &Explanation) -> String {
    if explanation.shown != Shown::Nothing || explanation.is_all {
        return String::new();
    }
    let short = race_free::short_lines(checked);
    if short.is_empty() {
        return String::new();
    }
    let lines = race_free::steps_up_to(checked, MOST_STEPS).unwrap_or(short);
    let rows = checked.run.rows.len();
    let lines = lines.iter().map(|line| named(&checked.run.notes, line));
    let pairs: String = lines.map(|line| paragraph(&line, rows)).collect();
    format!("<details>\n<summary>The pairs</summary>\n{pairs}</details>\n")
}

/// A part of the page that may be wider than it, and can be moved by keys.
fn scroll_area(name: &str) -> String {
    format!("<div class=\"wide\" tabindex=\"0\" role=\"region\" aria-label=\"{name}\">\n")
}

fn table_part(table: &[u8], run: &Run, explanation: &Explanation) -> String {
    let mut html = "<h2>The table</h2>\n".to_string();
    let header = header(table).unwrap_or("There is no header.".to_string());
    html += &paragraph(&header, 0);
    for line in agent_lines(run) {
        html += &paragraph(&line, 0);
    }
    if run.rows.is_empty() {
        return html;
    }
    html += &scroll_area("The table");
    html +=
        "<table>\n<caption>The rows, those that the answer names set off</caption>\n<thead><tr>";
    let columns = columns(run).into_iter();
    let columns = columns.map(|name| format!("<th scope=\"col\">{name}</th>"));
    html += &columns.collect::<String>();
    html += "</tr></thead>\n<tbody>\n";
    let pointed = explanation.shown.rows();
    for row in 0..run.rows.len() {
        let class = if pointed.contains(&row) {
            " pointed"
        } else {
            ""
        };
        let cells = cells(run, row).into_iter().skip(1);
        let cells = cells.map(|cell| format!("<td>{}</td>", escaped(&cell)));
        let cells: String = cells.collect();
        html += &format!("<tr id=\"row-{row}\" class=\"of-{row}{class}\"><th scope=\"row\">{row}</th>{cells}</tr>\n");
    }
    html += "</tbody>\n</table>\n</div>\n";
    for line in dependency_lines(run) {
        html += &paragraph(&line, run.rows.len());
    }
    html
}

#[cfg(test)]
mod tests {
    use super::linked;

    #[test]
    fn rows_are_linked() {
        for (text, rows) in [
            (
                "Rows 0 (w, a.comp:3) and 2 (r, a b.comp:9) conflict",
                vec![0, 2],
            ),
            ("releases (row 3) none, (rows 1 and 2)", vec![3, 1, 2]),
            ("rows 1, 2 and 9 at byte 0, new row 3", vec![1, 2]),
        ] {
            let html = linked(text, 9);
            let links: Vec<usize> = html
                .split("href=\"#row-")
                .skip(1)
                .map(|part| part.split('"').next().unwrap().parse().unwrap())
                .collect();
            assert_eq!(links, rows, "{html}");
        }
    }
}
