//! `show`, `explain` and `draw`: statuses, several files, refused tables, and
//! the pages of docs/words.

mod common;

use common::{p_ending, stramashly, stramashly_in, P};
use std::collections::BTreeSet;
use std::fs;
use std::path::{Path, PathBuf};

fn root() -> PathBuf {
    Path::new(env!("CARGO_MANIFEST_DIR")).join("../..")
}

/// Every example, by its file's name.
fn examples() -> Vec<String> {
    let files = fs::read_dir(root().join("examples")).unwrap();
    let mut names: Vec<String> = files
        .map(|file| file.unwrap().file_name().into_string().unwrap())
        .filter(|name| name.ends_with(".table"))
        .map(|name| format!("examples/{name}"))
        .collect();
    names.sort();
    names
}

#[test]
fn explain_begins_with_the_check_and_has_its_status() {
    let names = examples();
    assert!(names.len() > 20);
    for name in &names {
        let check = stramashly_in(&root(), &["check", name], b"");
        let explain = stramashly_in(&root(), &["explain", name], b"");
        let page = stramashly_in(&root(), &["explain", "--html", name], b"");
        assert!(explain.output.starts_with(&check.output), "{name}");
        assert!(explain.output.len() > check.output.len(), "{name}");
        assert!(page.output.starts_with("<!DOCTYPE html>"), "{name}");
        assert_eq!([explain.status, page.status], [check.status; 2], "{name}");
        assert_eq!(explain.messages + &page.messages, "");
    }
}

#[test]
fn show_and_draw_have_status_0_or_3() {
    for name in &examples() {
        let refusal = |purpose| {
            let answer = stramashly_in(&root(), &[purpose, name], b"");
            (answer.status == Some(3)).then_some(answer.output)
        };
        let show = stramashly_in(&root(), &["show", name], b"");
        let expected = if refusal("fill").is_some() { 3 } else { 0 };
        assert_eq!(show.status, Some(expected), "{name}");
        assert!(show.output.starts_with("version "), "{name}");
        if let Some(refusal) = refusal("fill") {
            assert!(show.output.contains(&refusal), "{name}");
        }
        let draw = stramashly_in(&root(), &["draw", name], b"");
        match refusal("check") {
            None => {
                assert_eq!((draw.status, draw.messages.as_str()), (Some(0), ""));
                assert!(draw.output.starts_with("<svg "), "{name}");
            }
            Some(refusal) => {
                assert_eq!((draw.status, draw.output.as_str()), (Some(3), ""));
                assert!(draw.messages.contains(refusal.trim_end()), "{name}");
            }
        }
    }
}

#[test]
fn standard_input_and_hex_go_with_each() {
    let cyclic = p_ending("FFFF0000");
    let explain = stramashly(&["explain", "--hex", "-"], cyclic.as_bytes());
    assert!(explain.output.starts_with("cycle 2 rows 0 3 edges 1 4\n"));
    assert_eq!(explain.status, Some(2));
    let show = stramashly(&["show", "--hex", "-"], P.as_bytes());
    assert!(show.output.starts_with("version 1, 2 agents, 4 rows\n"));
    let draw = stramashly(&["draw", "--hex", "-"], P.as_bytes());
    let title = ">Race-free: every conflicting pair of rows is ordered</title>";
    assert!(draw.output.contains(title));
}

#[test]
fn several_files_have_their_names_and_the_highest_status() {
    let words = ["explain", "examples/p.table", "examples/leak.table"];
    let answer = stramashly_in(&root(), &words, b"");
    assert_eq!(answer.status, Some(1));
    assert!(answer.output.starts_with("examples/p.table: race-free\n"));
    let second = "\nexamples/leak.table: race 0 4 0\n";
    assert!(answer.output.contains(second));
    let words = ["show", "examples/p.table", "no-such-file"];
    let answer = stramashly_in(&root(), &words, b"");
    assert_eq!(answer.status, Some(4));
    assert!(answer.output.starts_with("examples/p.table: version 1"));
    assert!(answer.messages.contains("no-such-file"));
}

#[test]
fn bad_usage_is_told() {
    for words in [
        ["draw", "a", "b"].as_slice(),
        &["explain", "--html", "a", "b"],
        &["check", "--html", "a"],
        &["show"],
    ] {
        let answer = stramashly(words, b"");
        assert_eq!((answer.output.as_str(), answer.status), ("", Some(4)));
        assert!(answer.messages.contains("--help"), "{}", answer.messages);
    }
    let missing = stramashly(&["draw", "no-such-file"], b"");
    assert_eq!((missing.output.as_str(), missing.status), ("", Some(4)));
}

/// The lines `| file | command |` of docs/words/README.md.
fn pages() -> Vec<(String, String)> {
    let text = fs::read_to_string(root().join("docs/words/README.md")).unwrap();
    let lines = text.lines().filter(|line| line.starts_with("| ["));
    lines
        .map(|line| {
            let cells: Vec<&str> = line.split('|').map(str::trim).collect();
            let file = cells[1].split(['[', ']']).nth(1).unwrap();
            let command = cells[2].trim_matches('`');
            let words = command.strip_prefix("./stramashly ").unwrap();
            (file.to_string(), words.to_string())
        })
        .collect()
}

/// What stands in docs/words is what the program prints today. Afterwards
/// `docs/words/write` makes them anew.
#[test]
fn the_pages_of_docs_are_up_to_date() {
    let folder = root().join("docs/words");
    let pages = pages();
    assert!(pages.len() >= 10, "only {} pages", pages.len());
    for (file, command) in &pages {
        let words: Vec<&str> = command.split(' ').collect();
        let answer = stramashly_in(&root(), &words, b"");
        let kept = fs::read_to_string(folder.join(file)).unwrap();
        // The texts are long: their difference would hide the reason.
        assert!(kept == answer.output, "docs/words/{file} is stale");
    }
    let named: BTreeSet<String> = pages.into_iter().map(|(file, _)| file).collect();
    for file in fs::read_dir(&folder).unwrap() {
        let name = file.unwrap().file_name().into_string().unwrap();
        let is_ours = ["README.md", "write"].contains(&name.as_str());
        assert!(is_ours || named.contains(&name), "{name}");
    }
}
