//! Every change that `explain` names does what it says: made in the table,
//! the rows no longer race at the byte.

mod common;

use common::{generated, with_relations};
use mend::{edited, parse_steps, stepped, Order, Outcome};
use mend::{Cure, Edit, Goal, Reason, Run, Step};
use std::collections::BTreeSet;
use stramashly::{Checker, OwnedCheckAnswer};
use tables::{Build, Row, Table, INITIAL};
use words::explain;
use words::{Explanation, Shown};

/// The race of a racing table.
fn race(explanation: &Explanation) -> Option<Goal> {
    match explanation.shown {
        Shown::Race(goal) => Some(goal),
        _ => None,
    }
}

/// Whether the rows of a goal race in a table, by the second implementation.
fn is_race(table: &[u8], goal: Goal) -> bool {
    with_relations(table, |checked| {
        let state = checked.state;
        assert!(state.conflicting(goal.first, goal.second));
        state.races_at(goal.first, goal.second, goal.byte)
    })
}

/// The goal's rows after a cure's new rows are put in.
fn moved(goal: Goal, cure: &Cure) -> Goal {
    cure.insertions.iter().fold(goal, |goal, insertion| Goal {
        first: insertion.moved(goal.first),
        second: insertion.moved(goal.second),
        ..goal
    })
}

/// The cure's steps, made in the table, end the race: by the proved checker
/// and by the second implementation.
fn check_cure(table: &[u8], goal: Goal, cure: &Cure, checker: &mut Checker) {
    let changed = stepped(table, &cure.steps()).unwrap();
    let after = moved(goal, cure);
    let answer = checker.check(&changed).to_string();
    assert_eq!(answer, cure.answer.to_string());
    assert!(!answer.starts_with("refused"), "{answer}");
    let told = format!("race {} {} {}", after.first, after.second, after.byte);
    assert_ne!(answer, told);
    assert!(is_race(table, goal) && !is_race(&changed, after));
    // No edit is idle, and no change of several is needless.
    for edit in &cure.edits {
        assert_ne!(edited(table, &[*edit]), table, "{edit}");
    }
    for place in 0..cure.changes.len() {
        check_needed(table, goal, cure, place, checker);
    }
}

/// Without one of its changes a cure of rows that are there ends no race.
fn check_needed(table: &[u8], goal: Goal, cure: &Cure, place: usize, checker: &mut Checker) {
    if cure.is_new() || cure.changes.len() < 2 {
        return;
    }
    let others = cure.changes.iter().enumerate();
    let others = others.filter(|(other, _)| *other != place);
    let edits: Vec<Edit> = others
        .flat_map(|(_, change)| change.edits.clone())
        .collect();
    let changed = edited(table, &edits);
    let answer = checker.check(&changed).to_string();
    let is_needed = answer.starts_with("refused") || is_race(&changed, goal);
    let earlier = |pair: (usize, usize)| pair < (goal.first, goal.second);
    assert!(
        is_needed || first_race(&answer).is_some_and(earlier),
        "{answer}"
    );
}

/// The rows of an answer that is a race.
fn first_race(answer: &str) -> Option<(usize, usize)> {
    let words: Vec<&str> = answer.split(' ').collect();
    match words[..] {
        ["race", first, second, _] => Some((first.parse().ok()?, second.parse().ok()?)),
        _ => None,
    }
}

/// The steps that stand in the text, in order.
fn printed_steps(explanation: &Explanation) -> Vec<Vec<Step>> {
    let lines = explanation.lines.iter();
    lines
        .filter_map(|line| line.trim_start().strip_prefix("edit: "))
        .map(|steps| parse_steps(steps).unwrap())
        .collect()
}

/// Whether what is said of the rows is so in the table, and a name for it.
fn is_so(run: &Run, reason: Reason) -> (bool, &'static str) {
    let rows = &run.rows;
    match reason {
        Reason::Private { row } => {
            let is_private = rows[row].is_plain() && !rows[row].is_non_private();
            (is_private, "private")
        }
        Reason::PlainFlag { row, .. } => {
            let is_flagged = rows[row].makes_available() || rows[row].makes_visible();
            (!is_flagged, "plain flag")
        }
        Reason::NoFlag { row, flag } => (rows[row].flags & flag == 0, "flag"),
        Reason::Narrow { row, scope, .. } => (rows[row].scope < scope, "scope"),
        Reason::LacksClass { row, class } => (rows[row].classes >> class & 1 == 0, "class"),
        Reason::LacksOrder { row, order, .. } => (rows[row].order & order == 0, "order"),
        // Of one row there is nothing to differ.
        Reason::Mixed { row } => (rows[row].is_control_barrier(), "mixed"),
        Reason::OtherReference { row, other } => {
            (rows[row].reference != rows[other].reference, "reference")
        }
        Reason::OtherSource { row, source } => (usize::from(rows[row].source) != source, "source"),
        Reason::EndsSequence { row } => {
            let is_write = rows[row].is_atomic() && !rows[row].reads();
            (is_write, "sequence")
        }
        Reason::NotAtomic { row, .. } => (rows[row].is_plain(), "atomic"),
        Reason::NoHandshake { before, after, .. } => {
            (rows[before].agent != rows[after].agent, "handshake")
        }
        Reason::NoMeeting { before, after, .. } => {
            (rows[before].agent != rows[after].agent, "meeting")
        }
        // These tables have neither hosts nor queues.
        Reason::NotCarried { .. } => (run.has_hosts, "carried"),
    }
}

/// How often each sort of change was named, alone and in pairs.
#[derive(Default)]
struct Seen {
    races: usize,
    uncured: usize,
    good: usize,
    inserted: usize,
    alone: usize,
    together: usize,
    reasons: BTreeSet<&'static str>,
}

fn check_table(table: &[u8], checker: &mut Checker, seen: &mut Seen) {
    let explanation = explain(table, checker);
    let Some(goal) = race(&explanation) else {
        assert!(explanation.cures.is_empty());
        return;
    };
    seen.races += 1;
    if explanation.cures.is_empty() {
        check_uncured(table, goal, &explanation);
        seen.uncured += 1;
    }
    let first = explanation.cures.first();
    seen.good += usize::from(first.is_some_and(|cure| cure.outcome.is_good()));
    check_printed(&explanation);
    for cure in &explanation.cures {
        check_cure(table, goal, cure, checker);
        match (cure.is_new(), cure.changes.len()) {
            (false, 1) => seen.alone += 1,
            (false, _) => seen.together += 1,
            _ => seen.inserted += 1,
        }
        let reasons = cure.changes.iter().flat_map(|change| &change.reasons);
        for reason in reasons {
            let (is_so, name) = is_so(&Run::of(table), *reason);
            assert!(is_so, "{reason:?}");
            seen.reasons.insert(name);
        }
    }
}

/// Where there is no change, the rows reach the same memory as two classes,
/// and the text has what to do outside of the shader.
fn check_uncured(table: &[u8], goal: Goal, explanation: &Explanation) {
    let rows = Run::of(table).rows;
    let (first, second) = (rows[goal.first], rows[goal.second]);
    assert_ne!(
        (first.reference, first.class),
        (second.reference, second.class)
    );
    assert_ne!(first.class, second.class);
    assert!(
        explanation.text().contains("two dispatches"),
        "{}",
        explanation.text()
    );
}

/// The text has the first eight changes that leave a possible run, in their
/// order, or impossible ones where there are no others; relaxed atomics where
/// nothing else that is there does.
fn check_printed(explanation: &Explanation) {
    let is_stronger = |cure: &Cure| cure.outcome.is_good() && cure.is_stronger();
    let has_order = explanation.cures.iter().any(is_stronger) && !explanation.cures[0].is_silent();
    let is_worth = |cure: &&Cure| {
        let is_possible = cure.outcome != Outcome::Impossible;
        is_possible && !(has_order && cure.is_silent())
    };
    let mut cures: Vec<&Cure> = explanation.cures.iter().filter(is_worth).collect();
    // Where there is something to do outside of the shader, that is enough.
    if cures.is_empty() && !explanation.text().contains("two dispatches") {
        cures = explanation.cures.iter().collect();
    }
    let printed = printed_steps(explanation);
    assert_eq!(printed.len(), cures.len().min(8));
    for (steps, cure) in printed.iter().zip(cures) {
        // Edits of one value stand together.
        let (mut steps, mut expected) = (steps.clone(), cure.steps());
        steps.sort_by_key(Step::to_string);
        expected.sort_by_key(Step::to_string);
        assert_eq!(steps, expected);
    }
}

#[test]
fn every_named_change_ends_the_race() {
    let mut checker = Checker::new();
    let mut seen = Seen::default();
    for table in generated(301, 5000, 2, 8) {
        check_table(&table, &mut checker, &mut seen);
    }
    for table in generated(302, 400, 9, 14) {
        check_table(&table, &mut checker, &mut seen);
    }
    assert!(seen.races > 700, "{} races", seen.races);
    assert!(seen.alone > 500, "{} alone", seen.alone);
    assert!(seen.together > 30, "{} together", seen.together);
    assert!(seen.inserted > 100, "{} with new rows", seen.inserted);
    // The first change ends the race and leaves a possible run.
    let (good, races, uncured) = (seen.good, seen.races, seen.uncured);
    assert!(20 * good >= 19 * races, "{good} of {races}");
    assert!(uncured > 10, "{uncured}");
    let all = [
        "atomic",
        "class",
        "flag",
        "handshake",
        "meeting",
        "order",
        "plain flag",
        "private",
        "reference",
        "scope",
        "sequence",
        "source",
    ];
    assert_eq!(seen.reasons, BTreeSet::from(all));
}

/// A large table is answered too, though not every pair can be tried.
#[test]
fn large_tables_are_explained() {
    let mut checker = Checker::new();
    let mut seen = Seen::default();
    for table in generated(305, 10, 64, 64) {
        check_table(&table, &mut checker, &mut seen);
    }
    for table in generated(306, 6, 120, 128) {
        check_table(&table, &mut checker, &mut seen);
    }
    assert!(seen.races > 0);
}

/// A write and a read of it with nothing between them, of 16 bytes, which no
/// atomic has, and of 4: a release and an acquire are put in.
#[test]
fn the_plainest_race_has_its_remedy() {
    let mut checker = Checker::new();
    let write = Row::write(0);
    for (length, workgroups) in [(16, [0, 0]), (4, [0, 0]), (16, [0, 1]), (4, [0, 1])] {
        let agents = [[0, workgroups[0], 0], [0, workgroups[1], 1]];
        let rows = [write.at(0, length), Row::read(1, 0).at(0, length)];
        for rows in [rows, rows.map(Row::private)] {
            let table = Table::new(&agents, &rows).bytes();
            let explanation = explain(&table, &mut checker);
            assert_eq!(explanation.answer.to_string(), "race 0 1 0");
            let cure = explanation.cures.iter().find(|cure| {
                let reason = cure.changes.last().unwrap().reasons[0];
                matches!(reason, Reason::NoHandshake { .. })
            });
            assert_eq!(cure.unwrap().answer, OwnedCheckAnswer::RaceFree);
            let text = explanation.text();
            assert!(text.contains("put in a release after row 0"), "{text}");
            for name in [
                "atomicStore(",
                "atomicLoad(",
                "OpAtomicStore",
                "OpAtomicLoad",
            ] {
                assert!(text.contains(name), "{text}");
            }
        }
    }
}

/// Of two references for one place, the shader's words say which to take.
#[test]
fn another_reference_is_another_variable() {
    let rows = [Row::read(0, INITIAL), Row::write(0).reference(2)];
    let rows = rows.map(Row::private);
    let table = Table::of_one_workgroup(1, &rows).bytes();
    let text = explain(&table, &mut Checker::new()).text();
    assert!(text.starts_with("race 0 1 0\n"), "{text}");
    for part in [
        "edit: row 0 reference 2",
        "GLSL: row 0 by the variable of row 1",
        "SPIR-V: row 0 by the pointer of row 1",
    ] {
        assert!(text.contains(part), "{text}");
    }
}

/// A read of the initial value comes before the write: the other way round
/// the run would be impossible.
#[test]
fn new_rows_go_with_what_was_read() {
    let rows = [Row::write(0).at(0, 16), Row::read(1, INITIAL).at(0, 16)];
    let table = Table::of_one_workgroup(2, &rows).bytes();
    let explanation = explain(&table, &mut Checker::new());
    let cure = &explanation.cures[0];
    assert_eq!(cure.answer, OwnedCheckAnswer::RaceFree);
    assert_eq!(cure.order, Some(Order::Rule { rule: 2, first: 1 }));
    let steps: Vec<String> = cure.steps().iter().map(Step::to_string).collect();
    assert_eq!(
        steps,
        [
            "insert 0 kind 6 agent 0 order 3 scope 2 classes 1 flags 6 class 2",
            "insert 3 kind 6 agent 1 order 3 scope 2 classes 1 flags 6 class 2",
        ]
    );
}

#[test]
fn edits_are_read_as_they_are_written() {
    for text in ["row 2 flags 3", "row 127 source 65535", "row 0 kind 4"] {
        let edit: Edit = text.parse().unwrap();
        assert_eq!(edit.to_string(), text);
    }
    for text in [
        "insert 0 kind 0 agent 0",
        "insert 128 kind 5 agent 31 order 3 scope 4 classes 15 flags 6",
        "insert 3 kind 4 agent 1 length 8 start 65528 reference 9 source 2 rank 65535",
        "row 2 agent 1",
    ] {
        let step: Step = text.parse().unwrap();
        assert_eq!(step.to_string(), text);
    }
    for text in [
        "insert",
        "insert 1",
        "insert 1 kind 5",
        "insert 129 kind 5 agent 0",
        "insert 1 kind 5 agent 0 kind 5",
        "insert 1 kind 5 agent 256",
        "insert 1 kind 5 agent",
        "insert 1 kind 5 agent 0 colour 3",
    ] {
        assert!(text.parse::<Step>().is_err(), "{text}");
    }
    for text in [
        "",
        "row 2 flags",
        "row 2 colour 3",
        "row x flags 3",
        "row 2 flags 65536",
        "row 2 flags 256",
        "row 2 flags +3",
    ] {
        assert!(text.parse::<Edit>().is_err(), "{text}");
    }
}

/// Steps that a table has no row, place or room for are told, not made.
#[test]
fn steps_that_cant_be_made_are_told() {
    let full = Table::of_one_workgroup(1, &[Row::write(0); 128]).bytes();
    let small = Table::of_one_workgroup(1, &[Row::write(0)]).bytes();
    for (table, text, part) in [
        (&small, "row 1 flags 0", "no row 1"),
        (&small, "insert 2 kind 1 agent 0", "no place 2"),
        (&full, "insert 2 kind 1 agent 0", "at most 128"),
        (&small[..9].to_vec(), "row 0 flags 0", "header"),
        (&vec![], "insert 0 kind 1 agent 0", "header"),
    ] {
        let reason = stepped(table, &[text.parse().unwrap()]).unwrap_err();
        assert!(reason.contains(part) && reason.contains(text), "{reason}");
    }
}
