//! `edit`, `fill --table` and `derive --words`: tables made of tables, and
//! derivations in sentences.

mod common;

use common::*;
use std::path::{Path, PathBuf};
use tables::{checkable, fillable, hex, Random, Size};
use words::explain;

fn examples() -> PathBuf {
    Path::new(env!("CARGO_MANIFEST_DIR")).join("../../examples")
}

/// What a run prints, whose bytes may be no text.
fn bytes_of(words: &[&str]) -> (Vec<u8>, String, Option<i32>) {
    bytes_in(&examples(), words)
}

#[test]
fn an_edit_that_explain_names_mends_the_table() {
    let (made, messages, status) = bytes_of(&["edit", "leak.table", "row 2 flags 3"]);
    assert_eq!((messages.as_str(), status), ("", Some(0)));
    let mended = std::fs::read(examples().join("leak-mended.table")).unwrap();
    assert_eq!(made, mended);
}

/// Every printed edit, given back as it is printed, gives the table whose
/// answer was promised.
#[test]
fn printed_edits_give_what_they_promise() {
    let mut random = Random::new(421);
    let mut checker = stramashly::Checker::new();
    let mut count = 0;
    while count < 40 {
        let table = checkable(&mut random, Size::of(2, 6)).bytes();
        let explanation = explain(&table, &mut checker);
        let lines: Vec<&str> = explanation.lines.iter().map(|line| line.trim()).collect();
        let edits = lines.iter().filter_map(|line| line.strip_prefix("edit: "));
        for (edit, cure) in edits.zip(&explanation.cures) {
            let digits = hex(&table);
            let made = stramashly(&["edit", "--hex", "-", edit], digits.as_bytes());
            assert_eq!(
                (made.messages.as_str(), made.status),
                ("", Some(0)),
                "{edit}"
            );
            let check = stramashly(&["check", "--hex", "-"], made.output.as_bytes());
            assert_eq!(check.output, format!("{}\n", cure.answer), "{edit}");
            count += 1;
        }
    }
}

#[test]
fn a_refused_table_is_told_and_handed_out() {
    let (made, messages, status) = bytes_of(&["edit", "leak.table", "row 2 kind 9"]);
    assert_eq!(status, Some(3));
    assert_eq!(made.len(), 116);
    assert!(messages.contains("refused 5 2"), "{messages}");
}

#[test]
fn bad_edits_are_told_and_nothing_is_written() {
    for (words, part) in [
        (&["edit", "leak.table", "row 9 flags 3"][..], "no row 9"),
        (&["edit", "leak.table", "row 2 colour 3"], "no edit"),
        (
            &["edit", "leak.table", "insert 9 kind 1 agent 0"],
            "no place 9",
        ),
        (&["edit", "leak.table"], "row 2 flags 3"),
        (&["edit", "no-such-file", "row 2 flags 3"], "no-such-file"),
        (&["edit", "README.md", "row 2 flags 3"], "header"),
        (&["fill", "--table", "no-such-file"], "no-such-file"),
        (&["fill", "--table", "."], "directory"),
    ] {
        let (made, messages, status) = bytes_of(words);
        assert_eq!((made.len(), status), (0, Some(4)), "{words:?}");
        assert!(messages.contains(part), "{messages}");
    }
}

#[test]
fn a_filled_table_is_handed_back() {
    let (made, messages, status) = bytes_of(&["fill", "--table", "fill.table"]);
    assert_eq!((messages.as_str(), status), ("", Some(0)));
    let p = std::fs::read(examples().join("p.table")).unwrap();
    assert_eq!(made, p);
    for (name, status, part) in [
        ("fill-none.table", 2, "none; there is no filled table"),
        ("fill-race.table", 1, "race 0 4 0; there is no filled table"),
        ("too-long.table", 3, "refused 7 1; there is no filled table"),
    ] {
        let (made, messages, code) = bytes_of(&["fill", "--table", name]);
        assert_eq!((made.len(), code), (0, Some(status)), "{name}");
        assert!(messages.contains(part), "{messages}");
    }
}

/// A filled table is race-free, and filling it again changes nothing.
#[test]
fn filled_tables_are_race_free() {
    let mut random = Random::new(422);
    let mut filled = 0;
    while filled < 30 {
        let digits = hex(&fillable(&mut random, Size::of(3, 8)).bytes());
        let made = stramashly(&["fill", "--table", "--hex", "-"], digits.as_bytes());
        if made.status != Some(0) {
            continue;
        }
        let check = stramashly(&["check", "--hex", "-"], made.output.as_bytes());
        assert_eq!(check.output, "race-free\n");
        let again = stramashly(&["fill", "--table", "--hex", "-"], made.output.as_bytes());
        assert_eq!(again, made);
        filled += 1;
    }
}

#[test]
fn derivations_are_put_into_words() {
    let of = |words: &str| {
        let words: Vec<&str> = words.split(' ').collect();
        stramashly_in(&examples(), &words, b"")
    };
    let chain = of("derive --words p.table 1.before 2.after");
    assert_eq!(
        chain.output,
        "chain 1 1028 519 1544\n\
         row 1's availability moment comes before row 1, a release for Uniform (M6, case 2)\n\
         row 1 synchronizes with row 2, both for Uniform (M6, case 1)\n\
         row 2, an acquire for Uniform, comes before row 2's visibility moment (M6, case 3)\n"
    );
    assert_eq!(chain.status, Some(0));
    assert_eq!(
        of("derive p.table 1.before 2.after").output,
        "chain 1 1028 519 1544\n"
    );
    let backwards = of("derive --words p.table 2.at 1.at");
    assert_eq!(backwards.status, Some(1));
    let expected =
        "not-before\nnothing leads from row 2 to row 1: agent 1 releases nothing from there on\n";
    assert_eq!(backwards.output, expected);
    let own = of("derive --words p.table 1.at 0.at");
    assert!(
        own.output.contains("which comes no later"),
        "{}",
        own.output
    );
    let none = of("derive --words p.table 0.before 1.at");
    assert_eq!(none.status, Some(3));
    assert!(
        none.output
            .starts_with("refused 12 0\nThe two numbers aren't"),
        "{}",
        none.output
    );
    // A table with blanks has its reasons too.
    let blank = of("derive --words fill.table 2.at 1.at");
    assert_eq!(blank.output, expected);
}

/// An edit of a text is a text, with its names, labels and places; of JSON
/// lines it is JSON lines.
#[test]
fn an_edited_text_stays_one() {
    let edits = "row 2 flags 3; insert 1 kind 1 agent 0 flags 1 length 4 start 40 reference 1";
    let (made, messages, status) = bytes_of(&["edit", "leak.txt", edits]);
    assert_eq!((messages.as_str(), status), ("", Some(0)));
    let text = String::from_utf8(made).unwrap();
    let old = std::fs::read_to_string(examples().join("leak.txt")).unwrap();
    let (edited, _, _) = bytes_of(&["edit", "leak.table", edits]);
    let scratch = common::scratch().join("edited-leak.txt");
    std::fs::write(&scratch, &text).unwrap();
    let again = bytes_of(&["make", scratch.to_str().unwrap()]).0;
    assert_eq!(again, edited);
    let places = old.lines().filter_map(|line| line.split_once(" @ "));
    let mut count = 0;
    for (_, place) in places {
        assert!(text.contains(&format!("@ {place}")), "{text}");
        count += 1;
    }
    assert!(count == 6 && text.contains("agent allocator"), "{text}");
    assert!(text.contains("publish: allocator atomic-write"), "{text}");
}
