//! A summary as one page: counts, a plot by folder, the worst runs and what was
//! found. It needs nothing from elsewhere but the runs' own pages.

use super::known::Earlier;
use super::show::{gone, share, standing};
use super::tally::{Counts, Tally};
use super::{Overview, Verdict};
use crate::output::complain;
use crate::read::read_named;
use crate::sarif::uri;
use draw::page as run_page;
use std::collections::BTreeMap;
use std::ffi::OsStr;
use std::fs;
use std::path::Path;
use stramashly::Checker;
use words::explain_noted;

const SHEET: &str = "\
:root { color-scheme: light dark; --ink: #1f2328; --paper: #ffffff; --faint: #6a737d; --line: #d8dee4;
  --race-free: #2da44e; --race: #cf222e; --cycle: #8250df; --overwritten: #bc4c00; --refused: #57606a; --unread: #9a6700; }
@media (prefers-color-scheme: dark) { :root { --ink: #e6edf3; --paper: #0d1117; --faint: #8b949e; --line: #30363d;
  --race-free: #3fb950; --race: #ff7b72; --cycle: #d2a8ff; --overwritten: #ffa657; --refused: #8b949e; --unread: #d29922; } }
body { margin: 0; background: var(--paper); color: var(--ink); font: 16px/1.5 system-ui, sans-serif; }
main { max-width: 72rem; margin: 0 auto; padding: 1.5rem; }
h1 { font-size: 1.5rem; margin: 0 0 .5rem; } h2 { font-size: 1.1rem; margin: 2rem 0 .5rem; }
.scroll { overflow-x: auto; }
table { border-collapse: collapse; font-variant-numeric: tabular-nums; }
th, td { padding: .25rem .75rem; border-bottom: 1px solid var(--line); text-align: right; vertical-align: top; }
th:first-child, td:first-child, .left { text-align: left; }
td { overflow-wrap: anywhere; } th { font-weight: 600; }
code { font-size: .85em; } .faint { color: var(--faint); }
svg text { font: 13px system-ui, sans-serif; fill: var(--ink); }
";

/// Bars of the plot: the folders with the most runs that aren't race-free.
const BARS: usize = 30;

pub fn page(tally: &Tally, earlier: &Earlier, overview: &Overview) -> String {
    let links = Links::write(tally, overview);
    let all = &tally.all;
    let title = escaped(&all.text());
    let mut html = format!(
        "<!DOCTYPE html>\n<html lang=\"en\">\n<head>\n<meta charset=\"utf-8\">\n\
         <meta name=\"viewport\" content=\"width=device-width, initial-scale=1\">\n\
         <title>{title}</title>\n<style>\n{SHEET}</style>\n</head>\n<body>\n<main>\n<h1>{title}</h1>\n"
    );
    html += &format!(
        "<p>{} conflicting pairs, {} racing, share {}.",
        all.conflicting,
        all.racing,
        share(all)
    );
    if let Some((cause, count)) = tally.causes().first() {
        let races = all.of(Verdict::Race);
        html += &format!(" Commonest cause: {cause} ({count} of {races} racing runs).");
    }
    html += "</p>\n";
    if let Some(against) = &earlier.against {
        let before = Counts {
            conflicting: against.conflicting,
            racing: against.racing,
            ..Counts::default()
        };
        let (then, now) = (share(&before), share(all));
        let runs = against.runs;
        html += &format!("<p>Against {runs} runs before: share {then} then, {now} now.</p>\n");
    }
    html += &plot(tally);
    html += &folders(tally);
    html += &worst(tally, &links);
    html += &findings(tally, earlier, &links);
    html + "</main>\n</body>\n</html>\n"
}

/// Runs by folder as bars, a colour for each verdict.
fn plot(tally: &Tally) -> String {
    let mut folders: Vec<(&String, &Counts)> = tally.folders.iter().collect();
    folders.sort_by_key(|(name, counts)| {
        let bad = counts.runs() - counts.of(Verdict::RaceFree);
        (std::cmp::Reverse(bad), name.as_str())
    });
    folders.truncate(BARS);
    let most = folders.iter().map(|(_, counts)| counts.runs()).max();
    let most = most.unwrap_or(1).max(1) as f64;
    let (left, width, step) = (230.0, 560.0, 24.0);
    let height = step * folders.len() as f64 + 34.0;
    let mut svg = format!(
        "<h2>Runs by folder</h2>\n<div class=\"scroll\"><svg xmlns=\"http://www.w3.org/2000/svg\" \
         width=\"900\" height=\"{height}\" viewBox=\"0 0 900 {height}\" role=\"img\">\n\
         <title>Runs by folder and verdict</title>\n"
    );
    let mut x = left;
    for verdict in Verdict::ALL
        .into_iter()
        .filter(|verdict| tally.all.of(*verdict) > 0)
    {
        let name = verdict.name();
        svg +=
            &format!("<rect x=\"{x}\" y=\"4\" width=\"12\" height=\"12\" fill=\"var(--{name})\"/>");
        svg += &format!("<text x=\"{}\" y=\"15\">{name}</text>\n", x + 17.0);
        x += 36.0 + 7.5 * name.len() as f64;
    }
    for (place, (name, counts)) in folders.iter().enumerate() {
        let y = 28.0 + step * place as f64;
        let shown = shortened(name);
        svg += &format!(
            "<text x=\"{}\" y=\"{}\" text-anchor=\"end\">{}</text>",
            left - 8.0,
            y + 13.0,
            escaped(&shown)
        );
        let mut x = left;
        for verdict in Verdict::ALL {
            let count = counts.of(verdict);
            if count == 0 {
                continue;
            }
            // What there is can be seen, however few there are.
            let part = (width * count as f64 / most).max(2.0);
            svg += &format!(
                "<rect x=\"{x:.1}\" y=\"{y}\" width=\"{part:.1}\" height=\"16\" fill=\"var(--{0})\">\
                 <title>{1}: {count} {0}</title></rect>",
                verdict.name(),
                escaped(name)
            );
            x += part;
        }
        let races = counts.of(Verdict::Race);
        svg += &format!(
            "<text x=\"{:.1}\" y=\"{}\">{races}</text>\n",
            x + 6.0,
            y + 13.0
        );
    }
    svg + "</svg></div>\n<p class=\"faint\">The number beside a bar is that of racing runs.</p>\n"
}

/// The end of a long name.
fn shortened(name: &str) -> String {
    const MOST: usize = 28;
    let count = name.chars().count();
    match count > MOST {
        true => format!(
            "…{}",
            name.chars().skip(count - MOST + 1).collect::<String>()
        ),
        false => name.to_string(),
    }
}

fn folders(tally: &Tally) -> String {
    let verdicts: Vec<Verdict> = Verdict::ALL
        .into_iter()
        .filter(|verdict| tally.all.of(*verdict) > 0)
        .collect();
    let heads = verdicts
        .iter()
        .map(|verdict| format!("<th scope=\"col\">{}</th>", verdict.name()));
    let mut html = format!(
        "<h2>Folders</h2>\n<div class=\"scroll\"><table>\n<tr><th scope=\"col\">folder</th>\
         <th scope=\"col\">runs</th>{}<th scope=\"col\">conflicting</th><th scope=\"col\">racing</th>\
         <th scope=\"col\">share</th></tr>\n",
        heads.collect::<String>()
    );
    for (name, counts) in &tally.folders {
        let cells = verdicts
            .iter()
            .map(|verdict| format!("<td>{}</td>", counts.of(*verdict)));
        html += &format!(
            "<tr><td>{}</td><td>{}</td>{}<td>{}</td><td>{}</td><td>{}</td></tr>\n",
            escaped(name),
            counts.runs(),
            cells.collect::<String>(),
            counts.conflicting,
            counts.racing,
            share(counts)
        );
    }
    html + "</table></div>\n"
}

fn worst(tally: &Tally, links: &Links) -> String {
    if tally.worst.is_empty() {
        return String::new();
    }
    let mut html =
        "<h2>Worst runs</h2>\n<div class=\"scroll\"><table>\n<tr><th scope=\"col\">run</th>\
                    <th scope=\"col\">racing</th><th scope=\"col\">conflicting</th>\
                    <th scope=\"col\" class=\"left\">answer</th></tr>\n"
            .to_string();
    for run in &tally.worst {
        html += &format!(
            "<tr><td>{}</td><td>{}</td><td>{}</td><td class=\"left\"><code>{}</code></td></tr>\n",
            links.link(&run.name),
            run.racing,
            run.conflicting,
            escaped(&run.answer)
        );
    }
    html + "</table></div>\n"
}

fn findings(tally: &Tally, earlier: &Earlier, links: &Links) -> String {
    let groups = tally.groups();
    let mut html = String::new();
    if !groups.is_empty() {
        html += "<h2>Findings</h2>\n<p class=\"faint\">Each counted once for a run: of a race the first pair.</p>\n\
                 <div class=\"scroll\"><table>\n<tr><th scope=\"col\">finding</th><th scope=\"col\">runs</th>\
                 <th scope=\"col\" class=\"left\">first in</th><th scope=\"col\" class=\"left\">fingerprint</th></tr>\n";
        for (print, group) in groups {
            let word = standing(earlier, print);
            let word = word.map_or(String::new(), |word| format!("<strong>{word}</strong> "));
            html += &format!(
                "<tr><td>{word}{}</td><td>{}</td><td class=\"left\">{}</td>\
                 <td class=\"left\"><code>{print}</code></td></tr>\n",
                escaped(&group.what),
                group.runs,
                links.link(&group.example)
            );
        }
        html += "</table></div>\n";
    }
    let gone = gone(tally, earlier);
    if !gone.is_empty() {
        html += "<h2>Gone</h2>\n<ul>\n";
        for (print, what) in gone {
            html += &format!("<li>{} <code>{print}</code></li>\n", escaped(what));
        }
        html += "</ul>\n";
    }
    html
}

fn escaped(text: &str) -> String {
    let text = text.replace('&', "&amp;").replace('<', "&lt;");
    text.replace('>', "&gt;").replace('"', "&quot;")
}

/// The pages of the runs that the page names, by the runs' names.
struct Links(BTreeMap<String, String>);

impl Links {
    /// Writes a page for each of these runs, if a folder for them was given.
    fn write(tally: &Tally, overview: &Overview) -> Links {
        let mut links = BTreeMap::new();
        let Some(folder) = &overview.pages else {
            return Links(links);
        };
        if let Err(error) = fs::create_dir_all(folder) {
            complain(&format!("{}: {error}", folder.to_string_lossy()));
            return Links(links);
        }
        let mut checker = Checker::new().with_chains(overview.has_chains);
        let worst = tally.worst.iter().map(|run| &run.name);
        let examples = tally.groups().into_iter().map(|(_, group)| &group.example);
        for name in worst.chain(examples) {
            if links.contains_key(name) {
                continue;
            }
            let Ok(given) = read_named(OsStr::new(name), overview.is_hex) else {
                continue;
            };
            let explanation = explain_noted(&given.table, &given.notes, &mut checker, false);
            let html = run_page(&given.table, &explanation, false);
            let file = format!("run-{}.html", links.len() + 1);
            let path = Path::new(folder).join(&file);
            match fs::write(&path, html) {
                Ok(()) => {
                    links.insert(name.clone(), uri(&path.to_string_lossy()));
                }
                Err(error) => complain(&format!("{}: {error}", path.display())),
            }
        }
        Links(links)
    }

    fn link(&self, name: &str) -> String {
        let shown = escaped(name);
        match self.0.get(name) {
            Some(link) => format!("<a href=\"{}\">{shown}</a>", escaped(link)),
            None => shown,
        }
    }
}
