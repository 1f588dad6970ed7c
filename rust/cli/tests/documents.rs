//! The pages of the repository: every run that they show prints what is shown,
//! every link leads somewhere, and no line is too long to read.

mod common;

use common::stramashly_in;
use std::fs;
use std::path::{Path, PathBuf};

fn root() -> PathBuf {
    Path::new(env!("CARGO_MANIFEST_DIR")).join("../..")
}

/// The pages, by their names from the root.
fn pages() -> Vec<String> {
    let mut pages = vec!["README.md", "CONTRIBUTING.md", "CHANGELOG.md"]
        .into_iter()
        .map(str::to_string)
        .collect::<Vec<String>>();
    for folder in ["docs", "docs/landings", "docs/words", "examples"] {
        for file in fs::read_dir(root().join(folder)).unwrap() {
            let name = file.unwrap().file_name().into_string().unwrap();
            if name.ends_with(".md") {
                pages.push(format!("{folder}/{name}"));
            }
        }
    }
    pages.sort();
    pages
}

fn text(page: &str) -> String {
    fs::read_to_string(root().join(page)).unwrap()
}

/// What stands below a command: up to the next command or to what isn't
/// further in.
fn shown_below(lines: &[&str]) -> String {
    let is_below = |line: &&&str| {
        let is_command = line.starts_with("    $ ");
        line.is_empty() || line.starts_with("    ") && !is_command
    };
    let below = lines.iter().take_while(is_below);
    let shown: String = below
        .map(|line| format!("{}\n", line.get(4..).unwrap_or_default()))
        .collect();
    shown.trim_end().to_string() + "\n"
}

#[test]
fn every_run_prints_what_is_shown() {
    let mut commands = 0;
    for page in pages() {
        let text = text(&page);
        let lines: Vec<&str> = text.lines().collect();
        for (place, line) in lines.iter().enumerate() {
            let Some(command) = line.strip_prefix("    $ ./stramashly ") else {
                continue;
            };
            let words: Vec<&str> = command.split(' ').collect();
            let answer = stramashly_in(&root(), &words, b"");
            let shown = shown_below(&lines[place + 1..]);
            assert_eq!(answer.output, shown, "{page}: {command}");
            commands += 1;
        }
    }
    assert!(commands >= 17, "{commands}");
}

/// A heading as a link names it.
fn anchor(heading: &str) -> String {
    heading
        .trim_start_matches('#')
        .trim()
        .to_lowercase()
        .chars()
        .filter(|letter| letter.is_alphanumeric() || " -_".contains(*letter))
        .map(|letter| if letter == ' ' { '-' } else { letter })
        .collect()
}

/// The targets of a page's links, those to other hosts left out.
fn links(text: &str) -> Vec<&str> {
    let ends = text
        .split("](")
        .skip(1)
        .filter_map(|rest| rest.split_once(')'));
    ends.map(|(target, _)| target)
        .filter(|target| !target.contains("://") && !target.contains(' '))
        .collect()
}

#[test]
fn every_link_leads_somewhere() {
    let mut count = 0;
    for page in pages() {
        let folder = root().join(&page).parent().unwrap().to_path_buf();
        for target in links(&text(&page)) {
            let (path, place) = target.split_once('#').unwrap_or((target, ""));
            let file = if path.is_empty() {
                root().join(&page)
            } else {
                folder.join(path)
            };
            assert!(file.exists(), "{page}: {target}");
            if !place.is_empty() {
                let there = fs::read_to_string(&file).unwrap();
                let is_there = there
                    .lines()
                    .any(|line| line.starts_with('#') && anchor(line) == place);
                assert!(is_there, "{page}: {target}");
            }
            count += 1;
        }
    }
    assert!(count >= 60, "{count}");
}

#[test]
fn the_front_page_is_short() {
    let text = text("README.md");
    assert!(text.lines().count() < 150, "{}", text.lines().count());
    assert!(text.split_whitespace().count() < 1500);
}

/// Tables and what is shown as it stands may be longer.
#[test]
fn no_line_is_too_long() {
    for page in pages() {
        for (number, line) in text(&page).lines().enumerate() {
            let is_bound = !line.starts_with('|') && !line.starts_with("    ");
            let length = line.chars().count();
            assert!(
                !is_bound || length <= 120,
                "{page}:{}: {length}",
                number + 1
            );
        }
    }
}
