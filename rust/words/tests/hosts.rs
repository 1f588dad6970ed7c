//! Host and queue agents, their operations and dependencies in words.

mod common;

use common::{elements, with_relations, Second};
use draw::draw;
use mend::{stepped, Cure, Judge, Notes, Step};
use tables::builder::kind::*;
use tables::builder::sort::{HOST, QUEUE, SHADER};
use tables::{hosted, Build, Random, Row, Size, Table, INITIAL};
use words::{explain, explain_noted, show, Explanation, Shown};

/// Each row depends on the one before it; agent 0 is a host, 1 a queue, 2 a
/// shader.
fn in_line(rows: &[Row]) -> Table {
    let dependencies: Vec<[u16; 2]> = (1..rows.len() as u16).map(|row| [row - 1, row]).collect();
    Table::with_sorts(&[HOST, QUEUE, SHADER], rows, &dependencies)
}

/// A host's write, made available, carried to the device, made visible there
/// and read by a shader.
fn upload() -> Table {
    in_line(&[
        Row::write(0).private(),
        Row::queue(1, AVAILABLE_TO_HOST),
        Row::queue(1, HOST_TO_DEVICE),
        Row::queue(1, VISIBLE_FROM_DEVICE),
        Row::read(2, 0).private().reference(2),
    ])
}

#[test]
fn a_table_with_hosts_is_shown_row_by_row() {
    let text = show(&upload().bytes());
    let lines: Vec<&str> = text.lines().collect();
    let header = "version 3, counted ranks, 3 agents, 5 rows, 4 dependencies";
    assert_eq!(lines[0], header);
    for (line, words) in lines[1..4].iter().zip(["host", "queue", "shader"]) {
        assert!(line.contains(&format!(": {words}, family")), "{line}");
    }
    assert_eq!(lines.len(), 1 + 3 + 1 + 5 + 4);
    let words = |line: usize| lines[line].split_whitespace().collect::<Vec<_>>().join(" ");
    assert_eq!(words(6), "1 1 availability to host - - - - - - - - -");
    assert!(words(7).starts_with("2 1 domain operation from host to device - - "));
    assert_eq!(lines[10], "dependency 0: row 0 before row 1");
    assert_eq!(lines[13], "dependency 3: row 3 before row 4");
}

/// What isn't whole isn't shown, and what has no meaning has a question mark.
#[test]
fn a_damaged_table_with_hosts_is_shown() {
    let mut table = upload();
    table.dependencies[1][1] = 9;
    table.rows[1].kind = 13;
    let mut bytes = table.bytes();
    bytes[8 + 7] = 3;
    let text = show(&bytes);
    for part in [
        "agent 0: 3?, family",
        "1    1      13?",
        "row 1 before row 9?",
    ] {
        assert!(text.contains(part), "{part}: {text}");
    }
    bytes.truncate(bytes.len() - 5);
    assert!(!show(&bytes).contains("dependency 2"));
    bytes.truncate(8 + 3 * 8 + 5 * 16 + 1);
    assert!(show(&bytes).contains(", no count of dependencies\n"));
}

fn explained(table: &Table) -> Explanation {
    explain_noted(&table.bytes(), &Notes::default(), &mut Second::new(), true)
}

fn edits(cure: &Cure) -> String {
    let steps: Vec<String> = cure.steps().iter().map(Step::to_string).collect();
    steps.join("; ")
}

/// Each step of an upload left out in turn: it is named, and put in again it
/// is what orders the rows.
#[test]
fn the_missing_step_of_an_upload_is_named_and_put_in() {
    for (missing, name, edit) in [
        (
            1,
            "availability to host",
            "insert 1 kind 7 agent 1; depend 0 1",
        ),
        (
            2,
            "domain operation from host to device",
            "insert 2 kind 11 agent 1",
        ),
        (
            3,
            "visibility from device",
            "insert 3 kind 10 agent 1; depend 3 4",
        ),
    ] {
        let mut rows = upload().rows;
        rows.remove(missing);
        let told = explained(&in_line(&rows));
        assert_eq!(told.answer.to_string(), "race 0 3 0");
        let text = told.text();
        assert!(text.contains("L5 comes nearest"), "{text}");
        assert!(
            text.contains(&format!("\n  no {name} leads from row")),
            "{text}"
        );
        assert_eq!(edits(&told.cures[0]), edit, "{text}");
        assert_eq!(told.cures[0].answer.to_string(), "race-free");
        assert!(text.contains("Then L5 puts row 0 first"), "{text}");
    }
}

/// A dependency of the host's next row doesn't carry the row before it.
#[test]
fn a_missing_dependency_is_named_and_put_in() {
    let mut table = upload();
    table.insert(1, Row::write(0).private().at(8, 4));
    table.dependencies[0][0] = 1;
    let told = explained(&table);
    let text = told.text();
    assert_eq!(told.answer.to_string(), "race 0 5 0");
    assert!(
        text.contains("row 0 doesn't happen before row 2, the availability to host: row 1 does"),
        "{text}"
    );
    assert_eq!(edits(&told.cures[0]), "depend 0 2", "{text}");
    assert!(text.contains("let row 2 depend on row 0"), "{text}");
}

/// A host's read before a shader's write: L4.
#[test]
fn a_read_needs_dependencies_only() {
    let rows = [
        Row::read(0, INITIAL).private(),
        Row::write(2).private().reference(2),
    ];
    let text = explained(&in_line(&rows)).text();
    assert!(text.starts_with("race-free\n"), "{text}");
    assert!(
        text.contains("by L4: row 0 only reads, and dependencies lead to row 1"),
        "{text}"
    );
    let told = explained(&Table::with_sorts(&[HOST, QUEUE, SHADER], &rows, &[]));
    let text = told.text();
    assert!(text.contains("L4 comes nearest"), "{text}");
    assert!(
        text.contains("no dependencies lead from row 0 to row 1"),
        "{text}"
    );
    assert_eq!(edits(&told.cures[0]), "depend 0 1", "{text}");
}

#[test]
fn an_upload_is_ordered_by_its_operations() {
    let text = explained(&upload()).text();
    let line = "Row 0 before row 4 at bytes 0 to 3 by L5: row 0 writes, row 1 makes it available \
        to the host domain, row 2 carries it from host to device and row 3 makes it visible from \
        the device domain.";
    assert!(text.contains(line), "{text}");
}

/// Without a queue agent nothing can be put in, and that is said.
#[test]
fn a_table_without_queues_has_no_operations_put_in() {
    let rows = [Row::write(0).private(), Row::read(1, 0).private()];
    let table = Table::with_sorts(&[HOST, SHADER], &rows, &[]);
    let text = explained(&table).text();
    assert!(
        text.contains("there is no queue agent for operations"),
        "{text}"
    );
}

/// Dependencies in words are read back, and need rows, room and a version
/// that has them.
#[test]
fn dependencies_are_put_in() {
    let step = |text: &str| text.parse::<Step>();
    for bad in [
        "depend",
        "depend 1",
        "depend 1 2 3",
        "depend a 1",
        "depend 1 -2",
    ] {
        assert!(step(bad).is_err(), "{bad}");
    }
    let depend = step("depend 0 2").unwrap();
    assert_eq!(depend.to_string(), "depend 0 2");
    let mut table = upload();
    let changed = stepped(&table.bytes(), &[depend]).unwrap();
    table.dependencies.push([0, 2]);
    assert_eq!(changed, table.bytes());
    assert!(stepped(&changed, &[step("depend 0 5").unwrap()]).is_err());
    table.dependencies = vec![[0, 1]; 64];
    assert!(stepped(&table.bytes(), &[depend]).is_err());
    assert!(stepped(&common::example("p"), &[depend]).is_err());
    // Rows put in move the dependencies on.
    let moved = stepped(
        &upload().bytes(),
        &[step("insert 2 kind 8 agent 1").unwrap()],
    )
    .unwrap();
    let mut expected = upload();
    expected.insert(2, Row::queue(1, AVAILABLE_TO_DEVICE));
    assert_eq!(moved, expected.bytes());
}

/// What is offered for a race orders the rows, and a check answers what is
/// said; where there is a queue, something is offered for nearly every race.
#[test]
fn cures_with_hosts_are_cures() {
    let mut second = Second::new();
    let mut random = Random::new(341);
    let (mut races, mut cured, mut with_dependencies) = (0, 0, 0);
    for _ in 0..700 {
        let table = hosted(&mut random, Size::of(3, 12)).bytes();
        let told = explain(&table, &mut second);
        let Shown::Race(goal) = told.shown else {
            continue;
        };
        let has_queue = with_relations(&table, |checked| {
            checked.has_host(goal.first, goal.second) && checked.run.sorts.contains(&QUEUE)
        });
        races += usize::from(has_queue);
        cured += usize::from(has_queue && !told.cures.is_empty());
        for cure in &told.cures {
            let changed = stepped(&table, &cure.steps()).unwrap();
            assert_eq!(second.check(&changed), cure.answer.borrowed());
            let moved = cure
                .insertions
                .iter()
                .fold(goal, |goal, insertion| mend::Goal {
                    first: insertion.moved(goal.first),
                    second: insertion.moved(goal.second),
                    ..goal
                });
            let is_race = with_relations(&changed, |checked| {
                let state = checked.state;
                state.races_at(moved.first, moved.second, moved.byte)
            });
            assert!(!is_race, "{}", told.text());
            let text = edits(cure);
            let read: Vec<Step> = text.split("; ").map(|step| step.parse().unwrap()).collect();
            assert_eq!(read, cure.steps());
            with_dependencies += usize::from(!cure.dependencies.is_empty());
        }
    }
    assert!(
        races > 50 && with_dependencies > 30,
        "{races} {with_dependencies}"
    );
    assert!(cured * 10 >= races * 9, "{cured} of {races}");
}

/// Columns are headed by what their agents are, and every dependency between
/// two rows has its arrow.
#[test]
fn hosts_queues_and_dependencies_are_drawn() {
    let svg = draw(&upload().bytes(), &mut Second::new(), false).unwrap();
    for name in ["host agent 0", "queue agent 1", "agent 2"] {
        assert!(svg.contains(&format!("\">{name}</text>")), "{name}");
    }
    assert!(svg.contains("row 3 depends on row 2"));
    assert!(svg.contains("operation of a queue") && svg.contains(">dependency<"));
    let mut random = Random::new(342);
    let mut sum = 0;
    for _ in 0..200 {
        let table = hosted(&mut random, Size::of(3, 12));
        let bytes = table.bytes();
        let svg = draw(&bytes, &mut Second::new(), true).unwrap();
        let mut joined = table.dependencies.clone();
        joined.retain(|[first, second]| first != second);
        joined.sort_unstable();
        joined.dedup();
        let elements = elements(&svg);
        let drawn = elements
            .iter()
            .filter(|tag| tag.has_class("depends"))
            .count();
        // One more stands in the legend, if there is any.
        assert_eq!(drawn, joined.len() + usize::from(!joined.is_empty()));
        sum += joined.len();
    }
    assert!(sum > 200, "{sum}");
}
