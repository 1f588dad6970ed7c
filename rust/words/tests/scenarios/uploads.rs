//! A host that fills a buffer for a shader, and reads it back.

use super::{Builder, Scenario};
use tables::builder::{kind, sort};
use tables::{Build, Row, Table};

pub fn all(has_places: bool) -> Vec<Scenario> {
    let mut scenarios: Vec<Scenario> = BUGS.map(|bug| upload(bug, has_places)).into();
    scenarios.push(read_back(has_places));
    scenarios
}

const BUGS: [&str; 4] = [
    "no domain operation",
    "a dependency of the host is missing",
    "a dependency of the shader is missing",
    "no visibility",
];

const AGENTS: [[u16; 3]; 3] = [[0, 0, 0]; 3];
const SORTS: [u16; 3] = [sort::HOST, sort::QUEUE, sort::SHADER];

/// Two writes of a host, a queue that carries them over, and two reads.
fn upload(bug: &str, has_places: bool) -> Scenario {
    let name = format!("upload, {bug}");
    let mut run = Builder::new(&name, &AGENTS, has_places);
    let private = |row: Row, at| row.private().at(at, 4);
    let first = run.push(private(Row::write(0), 0), 100);
    let second = run.push(private(Row::write(0), 4), 101);
    let out = run.push(Row::queue(1, kind::AVAILABLE_TO_HOST), 1);
    if bug != "no domain operation" {
        run.push(Row::queue(1, kind::HOST_TO_DEVICE), 1);
    }
    let mut last = run.rows().len() as u16 - 1;
    if bug != "no visibility" {
        last = run.push(Row::queue(1, kind::VISIBLE_FROM_DEVICE), 1);
    }
    let read = run.push(private(Row::read(2, first), 0), 20);
    let other = run.push(private(Row::read(2, second), 4), 21);
    let mut dependencies = vec![[first, out], [second, out], [last, read], [last, other]];
    match bug {
        "a dependency of the host is missing" => drop(dependencies.remove(0)),
        "a dependency of the shader is missing" => drop(dependencies.remove(3)),
        _ => (),
    }
    hosted(run, dependencies)
}

/// A shader's write that the host reads, with no operation to the host.
fn read_back(has_places: bool) -> Scenario {
    let mut run = Builder::new("read-back, no domain operation", &AGENTS, has_places);
    let write = run.push(Row::write(2).private(), 20);
    let out = run.push(Row::queue(1, kind::AVAILABLE_TO_DEVICE), 1);
    let visible = run.push(Row::queue(1, kind::VISIBLE_FROM_HOST), 1);
    let read = run.push(Row::read(0, write).private(), 100);
    hosted(run, vec![[write, out], [visible, read]])
}

fn hosted(run: Builder, dependencies: Vec<[u16; 2]>) -> Scenario {
    let table = Table::new(&AGENTS, run.rows());
    let table = Table {
        version: 3,
        sorts: SORTS.to_vec(),
        dependencies,
        ..table
    };
    run.of(table)
}
