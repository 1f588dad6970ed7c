//! `show`: a table as text, a line for each agent and each row.

use crate::describe::Describe;
use crate::names;
use mend::{dependency_count, Notes, Run};
use second::table::{SHADER, WITH_HOSTS};

/// The names of a row's columns; the last two are there where a text has
/// labels and places.
const COLUMNS: [&str; 14] = [
    "row",
    "agent",
    "kind",
    "order",
    "scope",
    "semantics",
    "flags",
    "class",
    "bytes",
    "reference",
    "source",
    "rank",
    "label",
    "at",
];

/// The columns that a table has.
pub fn columns(run: &Run) -> Vec<&'static str> {
    let rows = &run.notes.rows;
    let has_labels = rows.iter().any(|row| row.label.is_some());
    let has_places = rows.iter().any(|row| row.place.is_some());
    let is_there = |column: &&str| match *column {
        "label" => has_labels,
        "at" => has_places,
        _ => true,
    };
    COLUMNS.into_iter().filter(is_there).collect()
}

/// The table in words, as far as its bytes go.
pub fn show(table: &[u8]) -> String {
    show_noted(table, &Notes::default())
}

/// The same of a table of which more is noted.
pub fn show_noted(table: &[u8], notes: &Notes) -> String {
    let Some(header) = header(table) else {
        let bytes = names::counted(table.len(), "byte");
        return format!("{bytes}: too few for a header\n");
    };
    let run = Run::of(table).noted(notes);
    let mut text = format!("{header}\n");
    for line in agent_lines(&run) {
        text += &format!("{line}\n");
    }
    let columns = columns(&run).into_iter().map(String::from);
    let mut lines: Vec<Vec<String>> = vec![columns.collect()];
    lines.extend((0..run.rows.len()).map(|row| cells(&run, row)));
    if lines.len() > 1 {
        text += &aligned(&lines);
    }
    for line in dependency_lines(&run) {
        text += &format!("{line}\n");
    }
    text
}

/// A line for each agent: its name, what it is, unless it is a shader, and
/// where.
pub fn agent_lines(run: &Run) -> Vec<String> {
    let agents = run.agents.iter().enumerate();
    agents
        .map(|(agent, places)| {
            let sort = match run.sorts[agent] {
                SHADER if !run.has_hosts => String::new(),
                sort => format!("{}, ", names::sort(sort)),
            };
            let name = run.notes.agent(agent).map(|name| format!(" ({name})"));
            let name = name.unwrap_or_default();
            format!("agent {agent}{name}: {sort}{}", place_words(*places))
        })
        .collect()
}

/// A line for each dependency: the first row system-synchronizes-with the
/// second.
pub fn dependency_lines(run: &Run) -> Vec<String> {
    let all = run.dependencies.iter().enumerate();
    all.map(|(number, dependency)| {
        let [first, second] = dependency.map(|row| row_words(run, row));
        format!("dependency {number}: {first} before {second}")
    })
    .collect()
}

/// `row 2`, with a question mark if there is no such row.
fn row_words(run: &Run, row: u16) -> String {
    let is_there = usize::from(row) < run.rows.len();
    format!("row {row}{}", if is_there { "" } else { "?" })
}

/// `version 1, 2 agents, 4 rows`, or `version 2, counted ranks, 2 agents, …`;
/// version 3 has dependencies too.
pub fn header(table: &[u8]) -> Option<String> {
    let [_, _, _, _, version, agents, rows, _, ..] = *table else {
        return None;
    };
    let agents = names::counted(usize::from(agents), "agent");
    let rows = names::counted(usize::from(rows), "row");
    let ranks = if Run::is_counted_in(version) {
        ", counted ranks"
    } else {
        ""
    };
    let dependencies = match (version, dependency_count(table)) {
        (WITH_HOSTS, Some(count)) => format!(", {}", dependencies_words(count)),
        (WITH_HOSTS, None) => ", no count of dependencies".to_string(),
        _ => String::new(),
    };
    Some(format!(
        "version {version}{ranks}, {agents}, {rows}{dependencies}"
    ))
}

fn dependencies_words(count: usize) -> String {
    match count {
        1 => "1 dependency".to_string(),
        _ => format!("{count} dependencies"),
    }
}

/// `family 0, workgroup 1, subgroup 0`.
pub fn place_words([family, workgroup, subgroup]: [u16; 3]) -> String {
    format!("family {family}, workgroup {workgroup}, subgroup {subgroup}")
}

/// A row's fields in the order of the columns; a dash where the kind has no
/// such field and the bytes don't say otherwise.
pub fn cells(run: &Run, number: usize) -> Vec<String> {
    let fields = fields(run, number);
    let notes = &run.notes;
    let label = notes.label(number).unwrap_or("-").to_string();
    let place = notes
        .place(number)
        .map_or("-".to_string(), std::string::ToString::to_string);
    let cells = COLUMNS
        .into_iter()
        .zip(fields.into_iter().chain([label, place]));
    let columns = columns(run);
    let cells = cells.filter(|(column, _)| columns.contains(column));
    cells.map(|(_, cell)| cell).collect()
}

/// A name with its number in brackets, or the number.
fn with_name(name: Option<&str>, number: u16) -> String {
    match name {
        Some(name) => format!("{name} ({number})"),
        None => number.to_string(),
    }
}

/// The fields that the bytes have, agents and references with their names.
fn fields(run: &Run, number: usize) -> [String; 12] {
    let row = run.rows[number];
    let unless = |is_unused: bool, words: String| {
        if is_unused {
            "-".to_string()
        } else {
            words
        }
    };
    let is_flagged = row.makes_available() || row.makes_visible();
    let is_meeting = row.is_control_barrier();
    let is_operation = row.is_queue_operation() && run.has_hosts;
    let is_no_access = row.is_barrier() || is_operation;
    let is_place_unused = is_no_access && row.length == 0 && row.start == 0;
    let has_no_order = row.is_plain() || is_operation;
    [
        number.to_string(),
        with_name(run.notes.agent(row.agent.into()), row.agent.into()),
        run.kind_name(row),
        unless(has_no_order && row.order == 0, names::order(row.order)),
        unless(
            has_no_order && row.scope == 0 && !is_flagged,
            names::scope(row.scope),
        ),
        names::classes(row.classes),
        names::flags(row.flags),
        match is_meeting {
            true => format!("execution {}", names::scope(row.class)),
            false => unless(is_no_access && row.class == 0, names::class(row.class)),
        },
        match is_meeting && row.length == 0 {
            true => format!("instance {}", row.start),
            false => unless(is_place_unused, names::bytes(row)),
        },
        unless(
            is_no_access && row.reference == 0,
            with_name(
                run.notes.references.get(&row.reference).map(String::as_str),
                row.reference,
            ),
        ),
        names::source(row),
        unless(
            !row.is_atomic_writer() && row.rank == 0,
            row.rank.to_string(),
        ),
    ]
}

/// Lines of cells, each column as wide as its widest cell.
fn aligned(lines: &[Vec<String>]) -> String {
    let width = |column: usize| lines.iter().map(|line| line[column].chars().count()).max();
    let widths: Vec<usize> = (0..lines[0].len()).filter_map(width).collect();
    let mut text = String::new();
    for line in lines {
        let padded: Vec<String> = line
            .iter()
            .zip(&widths)
            .map(|(cell, width)| format!("{cell:width$}"))
            .collect();
        text += padded.join("  ").trim_end();
        text.push('\n');
    }
    text
}
