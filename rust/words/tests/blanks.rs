//! Blanks: what a fill makes of them is told, and where nothing can stand in
//! one, each source has a reason that holds.

mod common;

use common::example;
use mend::{edited, Edit, Field, Run};
use std::collections::BTreeMap;
use stramashly::{CheckAnswer, Checker, FillAnswer};
use tables::{fillable, Build, Random, Row, Size, Table, BLANK, INITIAL};
use words::explain;

fn text(table: &[u8]) -> String {
    explain(table, &mut Checker::new()).text()
}

#[test]
fn the_examples_are_told() {
    let filled = text(&example("fill"));
    assert!(
        filled.contains("row 3 read row 0, and no other choice"),
        "{filled}"
    );
    let race = text(&example("fill-race"));
    assert!(race.contains("whatever the blanks are"), "{race}");
    let none = text(&example("fill-none"));
    assert!(none.contains("answers `none`"), "{none}");
    assert!(!none.contains("try `stramashly fill`"), "{none}");
}

/// The lines after `Nothing can stand in row N's blank:`, by that row.
fn reasons(text: &str) -> BTreeMap<usize, Vec<String>> {
    let mut reasons: BTreeMap<usize, Vec<String>> = BTreeMap::new();
    let mut row = None;
    for line in text.lines() {
        if let Some(rest) = line.strip_prefix("Nothing can stand in row ") {
            let number = rest.split('\'').next().unwrap().parse().unwrap();
            row = Some(number);
        } else if let (Some(row), Some(reason)) = (row, line.strip_prefix("  ")) {
            reasons.entry(row).or_default().push(reason.to_string());
        } else {
            row = None;
        }
    }
    reasons
}

/// Each source that is ruled out is ruled out by a fill too: with it in the
/// blank, and the others as they are, there is still nothing.
fn check_reasons(table: &[u8], text: &str, checker: &mut Checker) -> usize {
    let run = Run::of(table);
    let mut count = 0;
    for (reader, lines) in reasons(text) {
        let writers = run.rows.iter().enumerate().filter(|(number, row)| {
            *number != reader && row.writes() && row.shares_a_byte_with(run.rows[reader])
        });
        assert_eq!(lines.len(), writers.count() + 1, "{text}");
        for line in lines {
            let (source, reason) = line.split_once(": ").unwrap();
            let source = match source {
                "the initial value" => INITIAL,
                _ => source.strip_prefix("row ").unwrap().parse().unwrap(),
            };
            let edit = Edit::new(reader, Field::Source, source);
            let answer = checker.fill(&edited(table, &[edit])).to_string();
            let is_partial = reason.starts_with("it writes byte");
            assert_eq!(answer.starts_with("refused 9"), is_partial, "{line}");
            assert!(is_partial || answer == "none", "{line}: {answer}");
            count += 1;
        }
    }
    count
}

#[test]
fn what_a_fill_answers_is_told() {
    let mut checker = Checker::new();
    let mut random = Random::new(371);
    let (mut seen, mut sources) = (BTreeMap::new(), 0);
    for _ in 0..4000 {
        let mut table = fillable(&mut random, Size::of(2, 9));
        // Now and then the wrong atomic was read, so that nothing fits.
        if random.percent(40) {
            for row in table.rows.iter_mut().filter(|row| row.is_atomic()) {
                if row.reads() && random.percent(50) {
                    row.source = INITIAL;
                }
            }
        }
        let bytes = table.bytes();
        let blank = checker.check(&bytes).to_string();
        let Some(row) = blank.strip_prefix("refused 9 ") else {
            continue;
        };
        let row: usize = row.parse().unwrap();
        if table.rows[row].source != BLANK || !table.rows[row].is_plain() {
            continue;
        }
        let answer = checker.fill(&bytes).to_string();
        let text = text(&bytes);
        let told = format!("`stramashly fill` answers `{answer}`");
        assert!(text.contains(&told), "{text}");
        let word = answer.split(' ').next().unwrap().to_string();
        *seen.entry(word).or_insert(0) += 1;
        if answer == "none" {
            let is_told = text.contains("Nothing can stand in row")
                || text.contains("with these, check answers `cycle")
                || text.contains("with these, check answers `overwritten");
            assert!(is_told, "{text}");
            sources += check_reasons(&bytes, &text, &mut checker);
        }
    }
    for word in ["filled", "race", "none"] {
        assert!(seen[word] > 50, "{seen:?}");
    }
    assert!(sources > 50, "{sources} sources ruled out");
}

/// A read between two writes that it must come after the first and before the
/// second of, as the flags say, and neither the first nor the initial value
/// can stand: the last write is both.
#[test]
fn a_blank_without_a_source_has_its_reasons() {
    // Two writes of one agent, one byte each way, before its own read of both.
    let rows = [
        Row::write(0).at(0, 1),
        Row::write(0).at(1, 1),
        Row::read(0, BLANK).at(0, 2),
    ];
    let table = Table::of_one_workgroup(1, &rows).bytes();
    let mut checker = Checker::new();
    assert_eq!(checker.fill(&table), FillAnswer::None);
    assert!(matches!(
        checker.check(&table),
        CheckAnswer::Refused { number: 9, row: 2 }
    ));
    let text = text(&table);
    for part in [
        "Nothing can stand in row 2's blank:",
        "  the initial value: row 0 had written byte 0 before row 2 read it",
        "  row 0: it writes byte 0 only",
        "  row 1: it writes byte 1 only",
    ] {
        assert!(text.contains(part), "{text}");
    }
}
