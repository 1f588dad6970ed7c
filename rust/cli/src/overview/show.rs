//! A summary as text, as CSV and as an object.

use super::known::Earlier;
use super::tally::{Counts, Group, Tally};
use super::{Run, Verdict};
use crate::found::Fingerprint;
use format::Object;

/// Findings that a text names; all are in the object and on the page.
const SHOWN: usize = 20;

/// Each cell to its column's width, the first to the left.
fn columns(rows: &[Vec<String>]) -> String {
    let count = rows.iter().map(Vec::len).max().unwrap_or(0);
    let width = |column: usize| {
        let cells = rows.iter().filter_map(|row| row.get(column));
        cells.map(|cell| cell.chars().count()).max().unwrap_or(0)
    };
    let widths: Vec<usize> = (0..count).map(width).collect();
    let mut text = String::new();
    for row in rows {
        let cells = row.iter().zip(&widths).enumerate();
        let cells = cells.map(|(column, (cell, width))| match column {
            0 => format!("{cell:<width$}"),
            _ => format!("{cell:>width$}"),
        });
        let line: Vec<String> = cells.collect();
        text += &format!("  {}\n", line.join("  ").trim_end());
    }
    text
}

pub fn share(counts: &Counts) -> String {
    counts
        .share()
        .map_or("-".to_string(), |share| format!("{share:.4}"))
}

/// The verdicts that occur.
fn verdicts(tally: &Tally) -> Vec<Verdict> {
    let all = Verdict::ALL.into_iter();
    all.filter(|verdict| tally.all.of(*verdict) > 0).collect()
}

/// How a finding stands to what is known: a word before it.
pub fn standing(earlier: &Earlier, print: Fingerprint) -> Option<&'static str> {
    if earlier.is_known(print) {
        return Some("known");
    }
    let against = earlier.against.as_ref();
    let is_new = earlier.has_baseline()
        || against.is_some_and(|against| !against.findings.contains_key(&print));
    is_new.then_some("new")
}

/// Findings of earlier runs that are no longer there.
pub fn gone<'a>(tally: &Tally, earlier: &'a Earlier) -> Vec<(Fingerprint, &'a str)> {
    let Some(against) = &earlier.against else {
        return Vec::new();
    };
    let findings = against.findings.iter();
    let gone = findings.filter(|(print, _)| !tally.groups.contains_key(print));
    gone.map(|(print, (what, _))| (*print, what.as_str()))
        .collect()
}

pub fn plain(tally: &Tally, earlier: &Earlier) -> String {
    let all = &tally.all;
    let mut text = format!("{}\n", all.text());
    text += &format!(
        "{} conflicting pairs, {} racing, share {}\n",
        all.conflicting,
        all.racing,
        share(all)
    );
    if let Some((cause, count)) = tally.causes().first() {
        let races = all.of(Verdict::Race);
        text += &format!("commonest cause: {cause} ({count} of {races} racing runs)\n");
    }
    text += &trend(tally, earlier);
    if tally.folders.len() > 1 {
        text += &folders(tally);
    }
    if !tally.worst.is_empty() {
        let head = ["racing", "conflicting", "run"].map(str::to_string);
        let rows = tally.worst.iter();
        let rows = rows.map(|run| (run.racing, run.conflicting, &run.name));
        text += "\nworst runs\n";
        text += &format!("  {:>6}  {:>11}  {}\n", head[0], head[1], head[2]);
        for (racing, conflicting, name) in rows {
            text += &format!("  {racing:>6}  {conflicting:>11}  {name}\n");
        }
    }
    text + &findings(tally, earlier)
}

fn folders(tally: &Tally) -> String {
    let verdicts = verdicts(tally);
    let mut head = vec!["folder".to_string(), "runs".to_string()];
    head.extend(verdicts.iter().map(|verdict| verdict.name().to_string()));
    head.extend(["conflicting", "racing", "share"].map(str::to_string));
    let mut rows = vec![head];
    for (name, counts) in &tally.folders {
        let mut row = vec![name.clone(), counts.runs().to_string()];
        row.extend(
            verdicts
                .iter()
                .map(|verdict| counts.of(*verdict).to_string()),
        );
        row.extend([counts.conflicting.to_string(), counts.racing.to_string()]);
        row.push(share(counts));
        rows.push(row);
    }
    format!("\nfolders\n{}", columns(&rows))
}

fn findings(tally: &Tally, earlier: &Earlier) -> String {
    let groups = tally.groups();
    let mut text = String::new();
    if !groups.is_empty() {
        text += "\nfindings, each counted once for a run: of a race the first pair\n";
    }
    for (print, group) in groups.iter().take(SHOWN) {
        let word = standing(earlier, *print).map_or(String::new(), |word| format!("{word}: "));
        let Group {
            runs,
            what,
            example,
            ..
        } = group;
        text += &format!("  {runs:>6}  {print}  {word}{what}\n");
        text += &format!("  {:>6}  {:16}  first in {example}\n", "", "");
    }
    if groups.len() > SHOWN {
        let more = groups.len() - SHOWN;
        text += &format!("  and {more} more, which --json and --html have\n");
    }
    let gone = gone(tally, earlier);
    if !gone.is_empty() {
        text += "\ngone\n";
        for (print, what) in gone {
            text += &format!("          {print}  {what}\n");
        }
    }
    text
}

/// What changed since the earlier summary.
fn trend(tally: &Tally, earlier: &Earlier) -> String {
    let Some(against) = &earlier.against else {
        return String::new();
    };
    let before = Counts {
        conflicting: against.conflicting,
        racing: against.racing,
        ..Counts::default()
    };
    let new = tally.groups.keys();
    let new = new.filter(|print| !against.findings.contains_key(print));
    format!(
        "against {} runs before: share {} then, {} now; {} findings are new, {} are gone\n",
        against.runs,
        share(&before),
        share(&tally.all),
        new.count(),
        gone(tally, earlier).len()
    )
}

pub const CSV_HEAD: &str =
    "file,folder,verdict,answer,conflicting,racing,share,cause,fingerprint\n";

/// A run's line.
pub fn csv(run: &Run) -> String {
    let name = run.name.to_string_lossy();
    let folder = std::path::Path::new(&*name).parent();
    let folder = folder.map_or(String::new(), |folder| {
        folder.to_string_lossy().into_owned()
    });
    let (mut conflicting, mut racing, mut share) = Default::default();
    if let Some((pairs, races)) = run.pairs {
        (conflicting, racing) = (pairs.to_string(), races.to_string());
        share = match pairs {
            0 => String::new(),
            _ => format!("{:?}", races as f64 / pairs as f64),
        };
    }
    let cause = run.found.as_ref().and_then(|found| found.cause);
    let print = run
        .found
        .as_ref()
        .map(|found| found.fingerprint.to_string());
    let cells: [&str; 9] = [
        &name,
        &folder,
        run.verdict.name(),
        &run.answer,
        &conflicting,
        &racing,
        &share,
        &cause.map_or(String::new(), |cause| cause.to_string()),
        &print.unwrap_or_default(),
    ];
    let cells: Vec<String> = cells.iter().map(|cell| quoted(cell)).collect();
    format!("{}\n", cells.join(","))
}

/// A cell in quotation marks, where it needs them.
fn quoted(cell: &str) -> String {
    match cell.contains([',', '"', '\n', '\r']) {
        true => format!("\"{}\"", cell.replace('"', "\"\"")),
        false => cell.to_string(),
    }
}

pub fn json(tally: &Tally, earlier: &Earlier) -> String {
    let mut object = Object::default();
    put_counts(&mut object, &tally.all);
    let causes = tally.causes().into_iter().map(|(cause, runs)| {
        let mut object = Object::default();
        object.text("cause", &cause.to_string());
        object.put("runs", runs);
        object
    });
    object.list("causes", causes);
    let folders = tally.folders.iter().map(|(name, counts)| {
        let mut object = Object::default();
        object.text("folder", name);
        put_counts(&mut object, counts);
        object
    });
    object.list("folders", folders);
    let worst = tally.worst.iter().map(|run| {
        let mut object = Object::default();
        object.text("file", &run.name);
        object.text("answer", &run.answer);
        object.put("conflicting", run.conflicting);
        object.put("racing", run.racing);
        object
    });
    object.list("worst", worst);
    let findings = tally.groups().into_iter().map(|(print, group)| {
        let mut object = Object::default();
        object.text("fingerprint", &print.to_string());
        object.text("verdict", group.verdict.name());
        object.text("what", &group.what);
        if let Some(cause) = group.cause {
            object.text("cause", &cause.to_string());
        }
        object.put("runs", group.runs);
        object.text("first", &group.example);
        if let Some(word) = standing(earlier, print) {
            object.text("standing", word);
        }
        object
    });
    object.list("findings", findings);
    if earlier.against.is_some() {
        let gone = gone(tally, earlier).into_iter().map(|(print, what)| {
            let mut object = Object::default();
            object.text("fingerprint", &print.to_string());
            object.text("what", what);
            object
        });
        object.list("gone", gone);
    }
    format!("{object}\n")
}

fn put_counts(object: &mut Object, counts: &Counts) {
    object.put("runs", counts.runs());
    let mut verdicts = Object::default();
    for verdict in Verdict::ALL {
        verdicts.put(verdict.name(), counts.of(verdict));
    }
    object.put("verdicts", verdicts);
    object.put("conflicting", counts.conflicting);
    object.put("racing", counts.racing);
    match counts.share() {
        Some(share) => object.put("share", format_args!("{share:?}")),
        None => object.put("share", "null"),
    }
}
