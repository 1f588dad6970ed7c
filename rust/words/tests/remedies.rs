//! The first remedy of a racing run that a shader's bug made: it ends the race,
//! and whoever follows first remedies comes to a race-free run.

mod common;
mod scenarios;

use common::{elements, with_relations};
use draw::page;
use mend::stepped;
use mend::{Cure, Notes, Place, RowNote};
use scenarios::Scenario;
use stramashly::{CheckAnswer, Checker};
use tables::{checkable, hosted, Build, Random, Row, Size, Table};
use words::Explanation;
use words::{explain_noted, show_noted};

/// So many first remedies mend a run that has one bug.
const ROUNDS: usize = 3;

fn explained(table: &[u8], notes: &Notes, checker: &mut Checker) -> Explanation {
    explain_noted(table, notes, checker, false)
}

/// How many first remedies it takes until a run is race-free.
fn rounds(scenario: &Scenario, checker: &mut Checker) -> usize {
    let (mut table, mut notes) = (scenario.table.clone(), scenario.notes.clone());
    for round in 0..=ROUNDS {
        if checker.check(&table) == CheckAnswer::RaceFree {
            return round;
        }
        let explanation = explained(&table, &notes, checker);
        let name = &scenario.name;
        let cure = explanation.cures.first().expect(name);
        assert!(cure.outcome.is_good(), "{name}: {}", cure.answer);
        table = stepped(&table, &cure.steps()).unwrap();
        notes = notes.stepped(&cure.steps());
    }
    ROUNDS + 1
}

#[test]
fn first_remedies_lead_to_race_free_runs() {
    let mut checker = Checker::new();
    let all = scenarios::all();
    let mut counts = [0; ROUNDS + 1];
    for scenario in &all {
        let rounds = rounds(scenario, &mut checker);
        assert!(
            (1..=ROUNDS).contains(&rounds),
            "{}: {rounds}",
            scenario.name
        );
        counts[rounds] += 1;
    }
    assert!(all.len() >= 60, "{}", all.len());
    // One round is the rule.
    assert!(10 * counts[1] >= 9 * all.len(), "{counts:?}");
}

/// The rows of one instruction, by its places and instances, that a cure
/// changes are all changed, and to the same.
fn check_instructions(scenario: &Scenario, cure: &Cure) {
    let name = &scenario.name;
    for change in &cure.changes {
        let set = |row: usize| {
            let edits = cure.edits.iter().filter(|edit| edit.row == row);
            let edits = edits.filter(|edit| edit.field.is_of_program());
            edits
                .map(|edit| (edit.field, edit.value))
                .collect::<Vec<_>>()
        };
        for row in change.rows.iter().filter(|_| !cure.is_silent()) {
            assert_eq!(set(*row), set(change.rows[0]), "{name}: {:?}", change.rows);
        }
        let places = change.rows.iter().map(|row| scenario.notes.place(*row));
        let mut places: Vec<_> = places.collect();
        places.dedup();
        assert!(places.len() <= 1 || cure.is_silent(), "{name}: {places:?}");
    }
}

/// The rule that comes nearest goes forward, also over phases of a control
/// barrier.
fn check_nearest(scenario: &Scenario, explanation: &Explanation) {
    let near = explanation.near.as_ref().expect(&scenario.name);
    let is_backward = with_relations(&scenario.table, |checked| {
        checked.is_backward(near.before, near.after)
    });
    assert!(!is_backward, "{}: {near:?}", scenario.name);
}

/// The data of a sequence lock becomes relaxed atomics; elsewhere these come
/// after what orders. With --all every change is there.
fn check_silent(scenario: &Scenario, explanation: &Explanation) -> bool {
    let is_seqlock = scenario.name.starts_with("seqlock");
    assert_eq!(
        explanation.cures[0].is_silent(),
        is_seqlock,
        "{}",
        scenario.name
    );
    let text = explanation.text();
    let is_told = text.contains("which ends the race and orders nothing");
    assert_eq!(
        is_told,
        explanation.cures.iter().any(Cure::is_silent),
        "{text}"
    );
    let numbered = format!("\n  {}. ", explanation.cures.len());
    assert!(text.contains(&numbered), "{text}");
    is_told
}

#[test]
fn changes_are_of_instructions_and_in_order() {
    let mut checker = Checker::new();
    let (mut lines, mut silent) = (0, 0);
    for scenario in scenarios::all() {
        let (table, notes) = (&scenario.table, &scenario.notes);
        let explanation = explain_noted(table, notes, &mut checker, true);
        for cure in &explanation.cures {
            check_instructions(&scenario, cure);
            lines += usize::from(cure.changes.iter().any(|change| change.rows.len() > 1));
        }
        check_nearest(&scenario, &explanation);
        silent += usize::from(check_silent(&scenario, &explanation));
    }
    assert!(lines > 20 && silent > 20, "{lines} {silent}");
}

fn text_of(table: &Table) -> String {
    let mut checker = Checker::new();
    explained(&table.bytes(), &Notes::default(), &mut checker).text()
}

/// Where a place stands in a text; it must.
fn place(text: &str, part: &str) -> usize {
    text.find(part)
        .unwrap_or_else(|| panic!("no {part:?} in {text}"))
}

/// Invocations of one subgroup meet rather than wait for each other.
#[test]
fn a_subgroup_meets_first() {
    let rows = [Row::write(0).class(1), Row::read(1, 0).class(1)];
    let text = text_of(&Table::new(&[[0; 3]; 2], &rows));
    let meets = place(&text, "meet in a control barrier");
    let waits = place(&text, "one subgroup may wait for each other for ever");
    assert!(meets < waits, "{text}");
}

/// An image and a buffer are no one variable.
#[test]
fn an_image_and_a_buffer_take_two_dispatches() {
    let rows = [Row::write(0), Row::read(1, 0).reference(2).class(2)];
    let text = text_of(&Table::new(&[[0, 0, 0], [0, 1, 0]], &rows));
    place(
        &text,
        "Let them be of two dispatches with a pipeline barrier between",
    );
    assert!(!text.contains("the variable of row"), "{text}");
}

/// A full table is told to be full, and what would be put in is named.
#[test]
fn a_full_table_is_told() {
    let mut rows = vec![Row::write(0).at(0, 16), Row::read(1, 0).at(0, 16)];
    let more = (0..126).map(|row| Row::write(2).at(64 + 4 * row, 4));
    rows.extend(more);
    let text = text_of(&Table::new(&[[0, 0, 0], [0, 1, 0], [0, 2, 0]], &rows));
    let full = place(
        &text,
        "The table is full: it has 128 rows, and none can be put in.",
    );
    let advice = place(&text, "put in a release after row 0");
    assert!(full < advice && !text.contains("edit:"), "{text}");
    place(&text, "GLSL: new row `atomicStore(");
}

/// A shared variable takes no qualifier, and what a program needs comes once,
/// after the changes.
#[test]
fn shaders_are_told_what_they_can_say() {
    let rows = [
        Row::write(0).class(1).private(),
        Row::control_barrier(0, 2, 7)
            .scope(2)
            .order(3, 2)
            .make_available()
            .make_visible(),
        Row::control_barrier(1, 2, 7)
            .scope(2)
            .order(3, 2)
            .make_available()
            .make_visible(),
        Row::read(1, 0).class(1),
    ];
    let text = text_of(&Table::of_one_workgroup(2, &rows));
    place(
        &text,
        "a store to a `shared` variable, which takes no qualifier",
    );
    assert!(!text.contains("declared `nonprivate`"), "{text}");
    for part in [
        "#extension GL_KHR_memory_scope_semantics",
        "#pragma use_vulkan_memory_model",
    ] {
        assert_eq!(text.matches(part).count(), 1, "{text}");
        assert!(place(&text, part) > place(&text, "SPIR-V: "), "{text}");
    }
    assert!(!text.contains("vulkanMemoryModelDeviceScope"), "{text}");
}

#[test]
fn device_scope_has_its_feature() {
    let flag = |row: Row| row.at(64, 4).reference(2);
    let rows = [
        Row::write(0),
        flag(Row::atomic_write(0, 1)).release(1),
        flag(Row::atomic_read(1, 1)).acquire(1).make_visible(),
        Row::read(1, 0),
    ];
    let text = text_of(&Table::of_one_workgroup(2, &rows));
    place(&text, "the feature `vulkanMemoryModelDeviceScope`");
}

/// Notes with few places, names and labels for any rows.
fn any_notes(random: &mut Random, rows: usize, agents: usize) -> Notes {
    let row = |random: &mut Random, row: usize| RowNote {
        label: random.percent(50).then(|| format!("l{row}")),
        place: random.percent(70).then(|| Place {
            file: "any.comp".to_string(),
            line: random.below(3) as u32 + 1,
            column: None,
        }),
        spot: (row + 1, 1),
    };
    Notes {
        agents: (0..agents)
            .map(|agent| random.percent(60).then(|| format!("n{agent}")))
            .collect(),
        references: [(1, "one".to_string())].into(),
        rows: (0..rows).map(|number| row(random, number)).collect(),
    }
}

/// Whatever rows are of one line, what is promised of changes is so, and pages
/// and pictures are well-formed.
#[test]
fn any_places_do() {
    let mut random = Random::new(392);
    let mut checker = Checker::new();
    let mut changes = 0;
    for round in 0..500 {
        let size = Size::of(2, 14);
        let table = match round % 2 {
            0 => checkable(&mut random, size).bytes(),
            _ => hosted(&mut random, size).bytes(),
        };
        let notes = any_notes(&mut random, table[6].into(), table[5].into());
        let explanation = explained(&table, &notes, &mut checker);
        for cure in explanation.cures.iter().filter(|cure| cure.has_room) {
            let changed = stepped(&table, &cure.steps()).unwrap();
            assert_eq!(checker.check(&changed), cure.answer.borrowed());
            changes += 1;
        }
        if round % 5 == 0 {
            elements(&page(&table, &explanation, false));
            assert_eq!(show_noted(&table, &notes).is_empty(), table.is_empty());
        }
    }
    assert!(changes > 200, "{changes}");
}
