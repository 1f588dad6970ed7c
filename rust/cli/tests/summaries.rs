//! `summary`: what it counts, groups, compares and writes.

mod common;

use common::*;
use std::fs;
use std::path::{Path, PathBuf};
use text::json::{parse, Value};

fn examples() -> PathBuf {
    Path::new(env!("CARGO_MANIFEST_DIR")).join("../../examples")
}

/// A folder with two folders of runs: three race-free, two that race at the same
/// lines, one that races elsewhere, one cycle, one refused.
fn runs(name: &str) -> PathBuf {
    let folder = scratch().join(name);
    let _ = fs::remove_dir_all(&folder);
    for (to, from) in [
        ("a/1.table", "p.table"),
        ("a/2.txt", "leak.txt"),
        ("a/3.table", "p-initial.table"),
        ("a/4.table", "leak-mended.table"),
        ("b/1.txt", "leak.txt"),
        ("b/2.table", "p-private.table"),
        ("b/3.table", "too-long.table"),
        ("b/4.table", "empty.table"),
    ] {
        let to = folder.join(to);
        fs::create_dir_all(to.parent().unwrap()).unwrap();
        fs::copy(examples().join(from), to).unwrap();
    }
    folder
}

fn summed(folder: &Path, words: &[&str]) -> Answer {
    let mut all = vec!["summary"];
    all.extend(words);
    stramashly_in(folder, &all, b"")
}

#[test]
fn runs_are_counted_in_all_and_by_folder() {
    let folder = runs("summary-plain");
    let answer = summed(&folder, &["a", "b"]);
    assert_eq!(answer.status, Some(3), "{}", answer.messages);
    let text = answer.output;
    let begin = "8 runs: 3 race-free, 3 race, 1 cycle, 1 refused\n";
    assert!(text.starts_with(begin), "{text}");
    for part in [
        "commonest cause: nothing makes the write available (2 of 3 racing runs)",
        "race of alloc.comp:41 and use.comp:15: nothing makes the write available",
        "an access is private",
        "refused 7 EXTENT: the row has a length or a start",
        "cycle by edges 1 4",
        "first in a/2.txt",
    ] {
        assert!(text.contains(part), "{part}\n{text}");
    }
    // The folders, and the worst run first.
    let lines: Vec<&str> = text.lines().collect();
    let row = |begin: &str| {
        lines
            .iter()
            .find(|line| line.trim_start().starts_with(begin))
    };
    let cells: Vec<&str> = row("a ").unwrap().split_whitespace().collect();
    assert_eq!(cells[..6], ["a", "4", "2", "1", "1", "0"]);
    let at = lines.iter().position(|line| *line == "worst runs").unwrap();
    assert!(lines[at + 2].ends_with("a/2.txt"), "{text}");
    // The pairs are those of the report.
    let report = stramashly_in(&folder, &["report", "--json", "a", "b"], b"");
    let sum = |key: &str| -> u64 {
        let key = format!("\"{key}\":");
        let numbers = report.output.split(&key).skip(1);
        numbers
            .map(|rest| {
                rest.split([',', '}'])
                    .next()
                    .unwrap()
                    .parse::<u64>()
                    .unwrap()
            })
            .sum()
    };
    let pairs = format!(
        "{} conflicting pairs, {} racing, share",
        sum("conflicting"),
        sum("racing")
    );
    assert!(text.contains(&pairs), "{pairs}\n{text}");
    // In several threads the same.
    assert_eq!(summed(&folder, &["-j", "3", "a", "b"]).output, text);
}

#[test]
fn one_run_and_none() {
    let folder = runs("summary-one");
    let answer = summed(&folder, &["a/1.table"]);
    assert!(
        answer.output.starts_with("1 run: 1 race-free\n"),
        "{}",
        answer.output
    );
    assert_eq!(answer.status, Some(0));
    for words in [
        &[][..],
        &["--csv", "--json", "a"],
        &["--pages", "x", "a"],
        &["--quiet", "a"],
    ] {
        assert_eq!(summed(&folder, words).status, Some(4), "{words:?}");
    }
    let answer = summed(&folder, &["nowhere", "a/1.table"]);
    assert_eq!(answer.status, Some(4));
    assert!(answer.messages.contains("nowhere: No such file"));
    assert!(
        answer.output.contains("1 race-free, 1 unread"),
        "{}",
        answer.output
    );
}

#[test]
fn as_csv_each_run_has_its_line() {
    let folder = runs("summary-csv");
    fs::write(folder.join("a/comma, \"quoted\".table"), b"").unwrap();
    let answer = summed(&folder, &["--csv", "a", "b"]);
    let lines: Vec<&str> = answer.output.lines().collect();
    assert_eq!(lines.len(), 1 + 9);
    assert_eq!(
        lines[0],
        "file,folder,verdict,answer,conflicting,racing,share,cause,fingerprint"
    );
    assert!(
        lines[1].starts_with("a/1.table,a,race-free,race-free,2,0,0.0,,"),
        "{}",
        lines[1]
    );
    assert!(lines[2].starts_with("a/2.txt,a,race,race 0 4 0,3,2,0.6666666666666666,nothing makes"));
    let odd = "\"a/comma, \"\"quoted\"\".table\",a,refused,refused 1 0,,,,,";
    assert!(
        lines.iter().any(|line| line.starts_with(odd)),
        "{}",
        answer.output
    );
}

#[test]
fn as_an_object_it_is_json_and_a_baseline() {
    let folder = runs("summary-json");
    let answer = summed(&folder, &["--json", "a", "b"]);
    let node = parse(1, answer.output.trim_end()).expect("JSON");
    let Value::Object(members) = &node.value else {
        panic!("no object");
    };
    let keys: Vec<&str> = members.iter().map(|member| member.key.as_str()).collect();
    let expected = [
        "runs",
        "verdicts",
        "conflicting",
        "racing",
        "share",
        "causes",
        "folders",
        "worst",
        "findings",
    ];
    assert_eq!(keys, expected);
    fs::write(folder.join("known.json"), &answer.output).unwrap();
    // All is known, so that nothing counts.
    let answer = summed(&folder, &["--baseline", "known.json", "a", "b"]);
    assert_eq!(answer.status, Some(0), "{}", answer.output);
    assert!(
        answer.output.contains("known: race of"),
        "{}",
        answer.output
    );
    // A race that isn't does.
    fs::copy(examples().join("relaxed.txt"), folder.join("b/5.txt")).unwrap();
    let answer = summed(&folder, &["--baseline", "known.json", "a", "b"]);
    assert_eq!(answer.status, Some(1));
    assert!(answer.output.contains("new: race of"), "{}", answer.output);
    // So does a file that can't be read.
    let answer = summed(&folder, &["--baseline", "known.json", "a", "nowhere"]);
    assert_eq!(answer.status, Some(4));
}

#[test]
fn a_baseline_may_be_lines() {
    let folder = runs("summary-lines");
    let answer = summed(&folder, &["--csv", "a/2.txt"]);
    let print = answer
        .output
        .trim_end()
        .rsplit(',')
        .next()
        .unwrap()
        .to_string();
    assert_eq!(print.len(), 16);
    let text = format!("# known since May\n\n{print}  the leak\n");
    fs::write(folder.join("known"), text).unwrap();
    let answer = summed(&folder, &["--baseline", "known", "a/2.txt", "b/1.txt"]);
    assert_eq!(answer.status, Some(0), "{}", answer.output);
    assert_eq!(
        summed(&folder, &["--baseline", "known", "b"]).status,
        Some(3)
    );
    fs::write(folder.join("bad"), "1234\n").unwrap();
    let answer = summed(&folder, &["--baseline", "bad", "b"]);
    assert_eq!((answer.output.as_str(), answer.status), ("", Some(4)));
    assert!(
        answer.messages.contains("bad:1:1: expected a fingerprint"),
        "{}",
        answer.messages
    );
    for bad in ["{}", "{\"runs\":1}", "{", "[]"] {
        fs::write(folder.join("bad"), bad).unwrap();
        let answer = summed(&folder, &["--against", "bad", "b"]);
        assert_eq!(
            (answer.output.as_str(), answer.status),
            ("", Some(4)),
            "{bad}"
        );
    }
}

#[test]
fn against_an_earlier_one_it_tells_what_is_new_and_gone() {
    let folder = runs("summary-against");
    let before = summed(&folder, &["--json", "a"]);
    fs::write(folder.join("before.json"), before.output).unwrap();
    let answer = summed(&folder, &["--against", "before.json", "b"]);
    let text = answer.output;
    assert!(text.contains("against 4 runs before: share"), "{text}");
    assert!(text.contains("2 findings are new, 1 are gone"), "{text}");
    assert!(text.contains("new: refused 7 EXTENT"), "{text}");
    let (_, gone) = text.split_once("\ngone\n").expect("what is gone");
    assert!(gone.contains("cycle by edges 1 4"), "{text}");
    // Comparing alone forgives nothing.
    assert_eq!(answer.status, Some(3));
    let object = summed(&folder, &["--json", "--against", "before.json", "b"]).output;
    assert!(object.contains("\"standing\":\"new\""), "{object}");
    assert!(object.contains("\"gone\":[{\"fingerprint\":"), "{object}");
}

#[test]
fn the_page_has_a_plot_and_links() {
    let folder = runs("summary-page");
    let odd = "a/<b>&\".table";
    fs::copy(examples().join("leak.table"), folder.join(odd)).unwrap();
    let answer = summed(&folder, &["--html", "--pages", "the pages", "a", "b"]);
    let html = answer.output;
    assert_eq!(answer.status, Some(3), "{}", answer.messages);
    assert!(html.starts_with("<!DOCTYPE html>\n<html lang=\"en\">"));
    assert!(html.trim_end().ends_with("</html>"));
    for part in [
        "<svg",
        "Runs by folder",
        "Worst runs",
        "Findings",
        "a/&lt;b&gt;&amp;&quot;.table",
    ] {
        assert!(html.contains(part), "{part}");
    }
    assert!(!html.contains("<b>") && !html.contains("<script"), "{html}");
    // Each link leads to the page of its run.
    let links: Vec<&str> = html.split("href=\"").skip(1).collect();
    assert!(links.len() >= 4, "{html}");
    for link in links {
        let link = link.split('"').next().unwrap().replace("%20", " ");
        let page = fs::read_to_string(folder.join(&link)).expect(&link);
        assert!(page.contains("<html"), "{link}");
    }
    // Without the folder there are none.
    let html = summed(&folder, &["--html", "a", "b"]).output;
    assert!(html.contains("<svg") && !html.contains("href="));
    // Every tag that opens is closed.
    for tag in ["table", "tr", "td", "th", "h2", "p", "div", "svg", "main"] {
        let open =
            html.matches(&format!("<{tag}>")).count() + html.matches(&format!("<{tag} ")).count();
        assert_eq!(open, html.matches(&format!("</{tag}>")).count(), "{tag}");
    }
}

/// The same race has one fingerprint wherever it was recorded, and SARIF has it too.
#[test]
fn fingerprints_stay_the_same() {
    let folder = runs("summary-prints");
    let csv = summed(&folder, &["--csv", "a/2.txt", "b/1.txt"]).output;
    let prints: Vec<&str> = csv
        .lines()
        .skip(1)
        .map(|line| line.rsplit(',').next().unwrap())
        .collect();
    assert_eq!(prints[0], prints[1]);
    let log = stramashly_in(&folder, &["check", "--sarif", "a/2.txt"], b"").output;
    let first = log.split("\"stramashly/v1\":\"").nth(1).unwrap();
    assert_eq!(&first[..16], prints[0]);
}
