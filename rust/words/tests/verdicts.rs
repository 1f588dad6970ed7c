//! `explain` never contradicts the proved answer, whatever the bytes, and
//! says something of every answer.

mod common;

use common::{elements, example, generated, with_relations};
use draw::{draw, page};
use mend::{edited, Notes, Run};
use std::collections::BTreeMap;
use stramashly::{Checker, OwnedCheckAnswer};
use tables::{damaged, fillable, Build, Random, Row, Size, Table};
use words::{explain, explain_noted, refusal, show, Checked};

/// Compares the first line with the check's answer, and gives its first word.
fn check_first_line(table: &[u8], checker: &mut Checker) -> String {
    let answer = checker.check(table).to_string();
    let explanation = explain(table, checker);
    let text = explanation.text();
    assert_eq!(text.lines().next(), Some(answer.as_str()));
    assert!(text.lines().count() > 1, "{text}");
    assert!(!text.contains("No explanation"), "{text}");
    answer.split(' ').next().unwrap().to_string()
}

#[test]
fn the_first_line_is_the_proved_answer() {
    let mut checker = Checker::new();
    let mut random = Random::new(331);
    let size = Size::of(2, 8);
    let mut tables = generated(332, 2000, 2, 8);
    tables.extend((0..2000).map(|_| damaged(&mut random, size)));
    tables.extend((0..500).map(|_| fillable(&mut random, size).bytes()));
    let mut counts = BTreeMap::new();
    for table in &tables {
        *counts
            .entry(check_first_line(table, &mut checker))
            .or_insert(0) += 1;
    }
    for word in ["race-free", "race", "cycle", "overwritten", "refused"] {
        assert!(counts[word] > 100, "{counts:?}");
    }
}

/// Every refusal has its meaning and names what the row holds.
#[test]
fn refusals_are_told() {
    let mut checker = Checker::new();
    let mut random = Random::new(333);
    let mut seen = [0; 16];
    for _ in 0..3000 {
        let table = damaged(&mut random, Size::of(2, 8));
        let explanation = explain(&table, &mut checker);
        let OwnedCheckAnswer::Refused { number, row } = explanation.answer else {
            continue;
        };
        seen[usize::from(number)] += 1;
        let text = explanation.lines.join("\n");
        assert!(!text.contains("isn't known here"), "{number}");
        if number >= 5 {
            assert!(text.contains(&format!("Row {row} holds: agent ")), "{text}");
            assert!(explanation.lines.len() >= 3, "{text}");
        }
        // Blanks are no reason to refuse a table that is only shown.
        let told = refusal(&table, &mut checker);
        let filled = checker.fill(&table).to_string();
        assert_eq!(
            told.and_then(|text| text.lines().next().map(str::to_string)),
            filled.starts_with("refused").then_some(filled)
        );
    }
    assert!(seen[1..=10].iter().all(|count| *count > 20), "{seen:?}");
}

/// No bytes are too bad for words and pictures.
#[test]
fn noise_is_no_panic() {
    let mut checker = Checker::new();
    let mut random = Random::new(334);
    for round in 0..3000 {
        let mut table = match round % 3 {
            0 => damaged(&mut random, Size::of(1, 6)),
            1 => (0..random.below(80))
                .map(|_| random.below(256) as u8)
                .collect(),
            _ => example("leak"),
        };
        if round % 3 == 2 {
            let place = random.below(table.len());
            table[place] = random.below(256) as u8;
            table.truncate(random.between(0, 2 * table.len()));
        }
        assert!(!show(&table).is_empty());
        let explanation = explain(&table, &mut checker);
        elements(&page(&table, &explanation, false));
        let is_refused = matches!(explanation.answer, OwnedCheckAnswer::Refused { .. });
        assert_eq!(draw(&table, &mut checker, false).is_err(), is_refused);
    }
}

/// Of a race-free table, every conflicting pair is in the account.
#[test]
fn every_conflicting_pair_is_accounted_for() {
    let mut checker = Checker::new();
    let mut pairs = 0;
    for table in generated(335, 1500, 2, 10) {
        let all = explain_noted(&table, &Notes::default(), &mut checker, true);
        if all.answer == OwnedCheckAnswer::RaceFree {
            let text = all.text();
            let counted = with_relations(&table, |checked| accounted(checked, &text));
            // Without --all a few lines say how many pairs there are.
            let short = explain(&table, &mut checker).text();
            assert!(short.lines().count() < 11, "{short}");
            let number = format!("\n{counted} pairs of rows conflict, and each is ordered:\n");
            assert!(counted < 2 || short.contains(&number), "{short}");
            pairs += counted;
        }
    }
    assert!(pairs > 2000, "{pairs} pairs");
}

fn accounted(checked: Checked, text: &str) -> usize {
    let rows = checked.run.rows.len();
    let pairs = (0..rows).flat_map(|x| (x + 1..rows).map(move |y| (x, y)));
    let mut count = 0;
    for (x, y) in pairs.filter(|(x, y)| checked.state.conflicting(*x, *y)) {
        let grouped = [format!(" {x} and {y},"), format!(" {x} and {y}.")];
        let alone = [
            format!("Row {x} before row {y} at byte"),
            format!("Row {y} before row {x} at byte"),
        ];
        let is_told = grouped.iter().chain(&alone).any(|part| text.contains(part));
        assert!(is_told, "{x} {y}: {text}");
        count += 1;
    }
    count
}

#[test]
fn a_table_is_shown_row_by_row() {
    let text = show(&example("p"));
    let lines: Vec<&str> = text.lines().collect();
    assert_eq!(lines[0], "version 1, 2 agents, 4 rows");
    assert_eq!(lines[2], "agent 1: family 0, workgroup 0, subgroup 1");
    assert_eq!(lines.len(), 8);
    let words: Vec<&str> = lines[5].split_whitespace().collect();
    let expected = "1 0 atomic write release workgroup Uniform non-private, make available \
        Uniform 4 to 7 2 - 1";
    assert_eq!(words.join(" "), expected);
    let blank = show(&example("fill"));
    assert!(blank.lines().last().unwrap().contains("blank"));
    assert_eq!(show(b"ab"), "2 bytes: too few for a header\n");
    let mut counted = example("empty");
    counted[4] = 2;
    assert_eq!(
        show(&counted),
        "version 2, counted ranks, 0 agents, 0 rows\n"
    );
}

/// A code without a meaning is shown as it is.
#[test]
fn codes_out_of_range_are_shown() {
    let mut table = example("p");
    // Row 1 of two agents: kind, scope, classes, flags and class.
    let row = 8 + 2 * 6 + 16;
    for (place, value) in [(0, 9), (3, 5), (4, 16), (5, 8), (6, 4)] {
        table[row + place] = value;
    }
    let text = show(&table);
    let line = text.lines().nth(5).unwrap();
    for word in ["9?", "5?", "16?", "8?", "4?"] {
        assert!(line.contains(word), "{line}");
    }
    let told = refusal(&table, &mut Checker::new()).unwrap();
    assert!(told.starts_with("refused 5 1\n"), "{told}");
    assert!(told.contains("kind 9?"), "{told}");
}

/// What an impossible run may mean is said of recorder, driver and device,
/// and the sources that are named make it possible.
#[test]
fn impossible_runs_have_their_causes() {
    let mut checker = Checker::new();
    let (mut runs, mut sources) = (0, 0);
    for table in generated(336, 1500, 2, 9) {
        let explanation = explain(&table, &mut checker);
        let is_impossible = matches!(
            explanation.answer,
            OwnedCheckAnswer::Cycle { .. } | OwnedCheckAnswer::Overwritten { .. }
        );
        let text = explanation.text();
        for name in ["  the recorder, if", "  the device, if"] {
            assert_eq!(text.contains(name), is_impossible, "{text}");
        }
        // A compiler keeps to releases and acquires, where there are any.
        let mut rows = Run::of(&table).rows.into_iter();
        let has_order = rows.any(|row| row.is_release() || row.is_acquire());
        let names_driver = text.contains("  the driver, if");
        assert_eq!(names_driver, is_impossible && has_order, "{text}");
        runs += usize::from(is_impossible);
        for line in text.lines().filter(|line| line.starts_with("  if row ")) {
            let (_, edit) = line.split_once("(edit: ").unwrap();
            let (edit, answer) = edit.split_once("), check answers `").unwrap();
            let edited = edited(&table, &[edit.parse().unwrap()]);
            let expected = checker.check(&edited).to_string();
            assert_eq!(answer, format!("{expected}`"));
            assert!(expected.starts_with("race"), "{expected}");
            sources += 1;
        }
    }
    assert!(runs > 200 && sources > 100, "{runs} {sources}");
}

/// Counted ranks are told as such, and compared as such.
#[test]
fn counted_ranks_are_told() {
    let mut checker = Checker::new();
    let told = explain(&example("counted"), &mut checker).text();
    assert!(told.starts_with("race-free\n"), "{told}");
    assert!(show(&example("counted")).starts_with("version 2, counted ranks, 3 agents"));
    let far = explain(&example("counted-too-far"), &mut checker).text();
    assert!(far.starts_with("refused 15 2\n"), "{far}");
    let fault = "rows 1 and 2 write this place with ranks 65535 and 32767, which no 32768 counts in a row hold";
    assert!(far.contains(fault), "{far}");
    // Two relaxed writers, each of which saw the other's write, past the counter's end.
    let rows = [
        Row::atomic_write(0, 65535),
        Row::atomic_write(1, 3),
        Row::atomic_read(2, 1),
        Row::atomic_read(2, 0),
    ];
    let table = Table::of_one_workgroup(3, &rows).counted().bytes();
    let cycle = explain(&table, &mut checker).text();
    assert!(cycle.starts_with("cycle "), "{cycle}");
    assert!(!cycle.contains("in version 2"), "{cycle}");
}

/// Ranks that run past their end make a cycle in version 1 and none in version
/// 2, and the explanation says so.
#[test]
fn ranks_past_their_end_are_told() {
    let rows = [
        Row::rmw(0, 65535, 65534),
        Row::rmw(1, 0, 65535),
        Row::rmw(0, 1, 0),
    ];
    let table = Table::of_one_workgroup(2, &rows).bytes();
    let told = explain(&table, &mut Checker::new()).text();
    assert!(told.starts_with("cycle "), "{told}");
    let hint = "in version 2, where they are counted, check answers `race-free`";
    assert!(told.contains(hint), "{told}");
    assert!(!told.contains("compiler"), "{told}");
}
