//! Text written: a table that a fill takes, with its notes.

use crate::assemble::admission;
use crate::vocabulary::{
    class_word, classes_of, is_atomic, kind_word, order_word, scope_word, sort_word, BLANK, FLAGS,
    HEAD, INITIAL,
};
use mend::{Notes, Run};
use second::table::{Row, QUEUE, SHADER};
use std::collections::{BTreeMap, BTreeSet, HashSet};
use std::fmt::Write;
use stramashly::Refusal;

/// The text of a table, with the names, labels and places that are noted of
/// it; the refusal of a table that a fill doesn't take.
pub fn write(table: &[u8], notes: &Notes) -> Result<String, Refusal> {
    if let Some(refusal) = admission(table) {
        return Err(refusal);
    }
    let run = Run::of(table);
    let names = Names::of(&run, notes);
    let mut text = format!("{HEAD} {}\n", table[4]);
    let mut put = |line: String| {
        // Writing to a string can't fail.
        let _ = writeln!(text, "{}", line.trim_end());
    };
    let widest = names.agents.iter().map(|name| name.chars().count()).max();
    for (agent, name) in names.agents.iter().enumerate() {
        let name = padded(name, widest);
        put(format!("agent {name} = {}", place_words(&run, agent)));
    }
    let widest = names.references.values().map(|name| name.chars().count());
    let widest = widest.max();
    for (number, name) in &names.references {
        let class = class_word(class_of(&run, *number));
        put(format!("ref {} = {number} {class}", padded(name, widest)));
    }
    if !run.rows.is_empty() {
        put(String::new());
    }
    row_lines(&run, &names, notes)
        .into_iter()
        .for_each(&mut put);
    if !run.dependencies.is_empty() {
        put(String::new());
    }
    for dependency in &run.dependencies {
        let [first, second] = dependency.map(|row| &names.labels[usize::from(row)]);
        put(format!("dependency {first} before {second}"));
    }
    Ok(text)
}

fn padded(name: &str, width: Option<usize>) -> String {
    format!("{name:<width$}", width = width.unwrap_or(0))
}

/// The rows' lines, their first columns aligned.
fn row_lines(run: &Run, names: &Names, notes: &Notes) -> Vec<String> {
    let rows = run.rows.iter().enumerate();
    let cells: Vec<[String; 5]> = rows
        .map(|(number, row)| {
            let access = match row.is_access() {
                true => format!(
                    "{} {}..{}",
                    names.references[&row.reference],
                    row.start,
                    row.end_byte()
                ),
                false => String::new(),
            };
            [
                format!("{}:", names.labels[number]),
                names.agents[usize::from(row.agent)].clone(),
                kind_word(row.kind),
                access,
                semantics(*row, names),
            ]
        })
        .collect();
    let width = |column: usize| {
        cells
            .iter()
            .map(|cells| cells[column].chars().count())
            .max()
    };
    let widths: Vec<Option<usize>> = (0..4).map(width).collect();
    let lines = cells.iter().enumerate().map(|(number, cells)| {
        let columns = cells.iter().zip(widths.iter().chain([&None]));
        let columns = columns.filter(|(_, width)| **width != Some(0));
        let columns: Vec<String> = columns.map(|(cell, width)| padded(cell, *width)).collect();
        let line = columns.join(" ");
        match notes.place(number) {
            Some(place) => format!("{} @ {place}", line.trim_end()),
            None => line,
        }
    });
    lines.collect()
}

/// All that is said of a row after its bytes.
fn semantics(row: Row, names: &Names) -> String {
    let mut words = Vec::new();
    if row.is_control_barrier() {
        let scope = scope_word(row.execution_scope());
        words.push(format!("execution {scope} instance {}", row.instance()));
    }
    if row.is_atomic() || row.is_barrier() {
        words.push(order_word(row.order).to_string());
        words.push(scope_word(row.scope));
    }
    if row.classes != 0 {
        words.push(format!("{{{}}}", classes_of(row.classes).join("+")));
    }
    for (place, (_, name, bit)) in FLAGS.iter().enumerate() {
        // An atomic is non-private without a word.
        if row.flags & bit != 0 && !(place == 0 && is_atomic(row.kind)) {
            words.push(name.to_string());
        }
    }
    if row.is_plain() && (row.makes_available() || row.makes_visible()) {
        words.push(scope_word(row.scope));
    }
    if row.reads() {
        words.push(format!("from {}", names.source(row.source)));
    }
    if row.is_atomic_writer() {
        words.push(format!("rank {}", row.rank));
    }
    words.join(" ")
}

/// `0.0.0`; a host or queue that is nowhere else has its word alone.
fn place_words(run: &Run, agent: usize) -> String {
    let places = run.agents[agent].map(|number| number.to_string()).join(".");
    match run.sorts[agent] {
        SHADER => places,
        sort if run.agents[agent] == [0; 3] => sort_word(sort).to_string(),
        sort => format!("{} {places}", sort_word(sort)),
    }
}

/// The one class that the accesses by a reference have.
fn class_of(run: &Run, reference: u16) -> u8 {
    let mut rows = run.rows.iter();
    let row = rows.find(|row| row.is_access() && row.reference == reference);
    row.map_or(0, |row| row.class)
}

/// What agents, references and rows are called.
struct Names {
    agents: Vec<String>,
    references: BTreeMap<u16, String>,
    labels: Vec<String>,
}

impl Names {
    fn of(run: &Run, notes: &Notes) -> Names {
        let agents = (0..run.agents.len()).map(|agent| {
            let word = match run.sorts[agent] {
                SHADER => "a",
                QUEUE => "queue",
                _ => "host",
            };
            let given = notes.agents.get(agent).cloned().flatten();
            (format!("{word}{agent}"), given)
        });
        let accesses = run.rows.iter().filter(|row| row.is_access());
        let numbers: BTreeSet<u16> = accesses.map(|row| row.reference).collect();
        let references = numbers.iter().map(|number| {
            let given = notes.references.get(number).cloned();
            (format!("v{number}"), given)
        });
        let labels = (0..run.rows.len()).map(|row| {
            let given = notes.label(row).map(str::to_string);
            (format!("r{row}"), given)
        });
        let references = unique(references.collect());
        Names {
            agents: unique(agents.collect()),
            references: numbers.into_iter().zip(references).collect(),
            labels: unique(labels.collect()),
        }
    }

    fn source(&self, source: u16) -> &str {
        match source {
            second::INITIAL => INITIAL,
            second::BLANK => BLANK,
            row => &self.labels[usize::from(row)],
        }
    }
}

/// The given names, and made ones that differ from all of these.
fn unique(names: Vec<(String, Option<String>)>) -> Vec<String> {
    let given: HashSet<String> = names
        .iter()
        .filter_map(|(_, given)| given.clone())
        .collect();
    let names = names.into_iter().map(|(mut made, name)| {
        while given.contains(&made) {
            made.push('_');
        }
        name.unwrap_or(made)
    });
    names.collect()
}
