//! Control barriers in words and pictures: which meeting orders a pair, what
//! a meeting lacks, and the band across the agents of an instance.

mod common;

use common::{elements, example, generated, with_relations};
use draw::draw;
use mend::{Notes, Run};
use std::collections::BTreeMap;
use stramashly::Checker;
use tables::builder::{order, scope};
use tables::{Build, Random, Row, Table};
use words::{explain, explain_noted, show, Checked};

/// A control barrier of instance 9 for Uniform, in workgroup scope.
fn control(agent: u8) -> Row {
    let row = Row::control_barrier(agent, scope::WORKGROUP, 9).scope(scope::WORKGROUP);
    row.order(order::BOTH, 1).make_available().make_visible()
}

fn execution(agent: u8) -> Row {
    Row::control_barrier(agent, scope::WORKGROUP, 9).scope(scope::WORKGROUP)
}

/// A write by agent 0, these rows, and a read of it by agent 1.
fn between(rows: &[Row]) -> Vec<u8> {
    let mut all = vec![Row::write(0)];
    all.extend(rows);
    all.push(Row::read(1, 0));
    Table::of_one_workgroup(2, &all).bytes()
}

fn text(table: &[u8]) -> String {
    explain(table, &mut Checker::new()).text()
}

/// The text with every pair.
fn all_text(table: &[u8]) -> String {
    explain_noted(table, &Notes::default(), &mut Checker::new(), true).text()
}

#[test]
fn the_meeting_that_orders_a_pair_is_named() {
    let text = all_text(&between(&[control(0), control(1)]));
    assert!(text.starts_with("race-free\n"), "{text}");
    let step = "row 1 synchronizes with row 2, both of control barrier 9, both for Uniform";
    assert!(text.contains(step), "{text}");
    let fences = all_text(&example("control-fences"));
    let step = "with rows 2 and 3 of control barrier 1 between them";
    assert!(fences.contains(step), "{fences}");
}

#[test]
fn what_a_meeting_lacks_is_named() {
    let acquire = execution(1).order(order::ACQUIRE, 1).make_visible();
    let release = execution(0).order(order::RELEASE, 1).make_available();
    for (rows, part) in [
        (
            vec![execution(0), execution(1)],
            "rows 1 and 2 meet in control barrier 9, but row 1 doesn't release and row 2 doesn't acquire",
        ),
        (vec![execution(0), acquire], "but row 1 doesn't release"),
        (vec![release, execution(1)], "but row 2 doesn't acquire"),
        (
            vec![control(0).scope(scope::SUBGROUP), control(1)],
            "but row 1 has subgroup memory scope only",
        ),
    ] {
        let text = text(&between(&rows));
        assert!(text.starts_with("race 0 3 0\n"), "{text}");
        assert!(text.contains(part), "{text}");
    }
    let barrier = |agent, order| {
        Row::barrier(agent, order, 1)
            .scope(scope::WORKGROUP)
            .make_available()
    };
    let mut apart = [barrier(0, order::BOTH), barrier(1, order::BOTH)];
    apart[1].flags = 4;
    let text = text(&between(&apart));
    let part = "and no control barrier is met between them";
    assert!(text.contains(part), "{text}");
}

/// A control barrier or a fence of some order, scope and flags.
fn some_barrier(random: &mut Random, agent: u8) -> Row {
    let order = random.below(4) as u8;
    let row = if random.percent(70) {
        Row::control_barrier(agent, scope::WORKGROUP, random.pick(&[9, 9, 9, 10]))
    } else {
        Row::barrier(agent, order.max(1), 1)
    };
    let order = if row.kind == 5 { row.order } else { order };
    let mut row = row.order(order, u8::from(order > 0));
    row.scope = random.pick(&[scope::WORKGROUP, scope::WORKGROUP, scope::SUBGROUP]);
    if order & order::RELEASE != 0 && random.percent(80) {
        row = row.make_available();
    }
    if order & order::ACQUIRE != 0 && random.percent(80) {
        row = row.make_visible();
    }
    row
}

/// What a meeting is said to lack is so: the row that is said not to release
/// or acquire doesn't, and the scope that is too narrow is.
#[test]
fn what_is_said_of_meetings_is_so() {
    let mut random = Random::new(381);
    let mut said = 0;
    for _ in 0..600 {
        let rows: Vec<Row> = (0..random.between(2, 5))
            .map(|_| {
                let agent = random.below(2) as u8;
                some_barrier(&mut random, agent)
            })
            .collect();
        let table = between(&rows);
        let text = text(&table);
        let run = Run::of(&table);
        let parts = text
            .lines()
            .filter_map(|line| line.split_once(" meet in control barrier "));
        for (_, lacks) in parts.filter_map(|(_, part)| part.split_once(", but ")) {
            for lack in lacks.split(" and ").flat_map(|part| part.split(", ")) {
                let words: Vec<&str> = lack.split(' ').collect();
                let row = run.rows[words[1].parse::<usize>().unwrap()];
                let is_so = match words[2..] {
                    ["doesn't", "release"] => !row.is_release(),
                    ["doesn't", "acquire"] => !row.is_acquire(),
                    ["has", "subgroup", ..] => row.is_barrier() && row.scope == scope::SUBGROUP,
                    _ => panic!("{lack}"),
                };
                assert!(is_so, "{text}");
                said += 1;
            }
        }
    }
    assert!(said > 100, "{said}");
}

#[test]
fn rows_are_shown_with_instance_and_execution_scope() {
    let text = show(&between(&[execution(0), control(1)]));
    let line = |row: usize| {
        let words: Vec<&str> = text
            .lines()
            .nth(4 + row)
            .unwrap()
            .split_whitespace()
            .collect();
        words.join(" ")
    };
    assert_eq!(
        line(1),
        "1 0 control barrier relaxed workgroup - - execution workgroup instance 9 - - -"
    );
    assert_eq!(
        line(2),
        "2 1 control barrier acquire-release workgroup Uniform make available, make visible execution workgroup instance 9 - - -"
    );
    let explained = explain(&between(&[execution(0), execution(1)]), &mut Checker::new());
    assert!(explained.answer.to_string().starts_with("race"));
}

/// How many bands the instances ask for.
fn instances(checked: Checked) -> usize {
    let mut counts: BTreeMap<u16, usize> = BTreeMap::new();
    for row in &checked.run.rows {
        if row.is_control_barrier() {
            *counts.entry(row.instance()).or_default() += 1;
        }
    }
    counts.values().filter(|count| **count > 1).count()
}

#[test]
fn every_instance_has_its_band() {
    let mut checker = Checker::new();
    let mut bands = 0;
    let example = example("control");
    for table in generated(382, 300, 6, 16).into_iter().chain([example]) {
        let elements = elements(&draw(&table, &mut checker, true).unwrap());
        let drawn = elements.iter().filter(|tag| tag.has_class("band")).count();
        let expected = with_relations(&table, instances);
        // One more stands in the legend.
        assert_eq!(drawn, expected + usize::from(expected > 0));
        bands += expected;
    }
    assert!(bands > 20, "{bands} bands");
}
