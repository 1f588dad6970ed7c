//! Every line of examples/README.md, held to the program.

mod common;

use common::{stramashly_in, Answer};
use std::collections::BTreeSet;
use std::fs;
use std::path::{Path, PathBuf};

/// One line of the page.
struct Example {
    words: Vec<String>,
    answer: String,
    status: i32,
}

fn folder() -> PathBuf {
    Path::new(env!("CARGO_MANIFEST_DIR")).join("../../examples")
}

fn page() -> Vec<Example> {
    let text = fs::read_to_string(folder().join("README.md")).unwrap();
    text.lines()
        .filter(|line| line.starts_with("| `"))
        .map(|line| {
            let cells: Vec<&str> = line.split('|').map(str::trim).collect();
            assert_eq!(cells.len(), 6, "{line}");
            let code = |cell: &str| cell.trim_matches('`').to_string();
            Example {
                words: code(cells[1]).split(' ').map(str::to_string).collect(),
                answer: code(cells[2]),
                status: cells[3].parse().unwrap(),
            }
        })
        .collect()
}

#[test]
fn every_line_of_the_page_is_right() {
    let page = page();
    assert!(page.len() >= 20, "only {} lines", page.len());
    for example in &page {
        let words: Vec<&str> = example.words.iter().map(String::as_str).collect();
        let expected = Answer {
            output: format!("{}\n", example.answer),
            messages: String::new(),
            status: Some(example.status),
        };
        let mut answer = stramashly_in(&folder(), &words, b"");
        // Which of two moments isn't there is told besides.
        if example.answer == "refused 12 0" {
            assert!(answer.messages.contains("moment"), "{words:?}");
            answer.messages.clear();
        }
        assert_eq!(answer, expected, "{words:?}");
    }
}

#[test]
fn every_table_is_on_the_page() {
    let named: BTreeSet<String> = page().iter().map(|line| line.words[1].clone()).collect();
    for file in fs::read_dir(folder()).unwrap() {
        let file = file.unwrap();
        let name = file.file_name().into_string().unwrap();
        // Folders hold programs.
        if file.path().is_dir() {
            continue;
        }
        assert!(name == "README.md" || named.contains(&name), "{name}");
    }
}

#[test]
fn every_answer_is_on_the_page() {
    let first_word = |line: &Example| line.answer.split(' ').next().unwrap().to_string();
    let words: BTreeSet<String> = page().iter().map(first_word).collect();
    let all = [
        "race-free",
        "race",
        "overwritten",
        "cycle",
        "refused",
        "none",
        "filled",
        "report",
        "program-order",
        "chain",
        "not-before",
        "accepted",
        "not-accepted",
    ];
    assert_eq!(words, all.map(str::to_string).into());
}
