//! JSON lines written: a table that a fill takes, with its notes.

use crate::assemble::admission;
use crate::vocabulary::{
    class_word, classes_of, kind_word, order_word, scope_word, sort_word, BLANK, FLAGS, INITIAL,
};
use format::{Object, Quoted};
use mend::{Notes, Run};
use second::table::Row;
use std::fmt::Display;
use stramashly::Refusal;

/// The lines of a table: its header, then a row each; the refusal of a table
/// that a fill doesn't take.
pub fn write_lines(table: &[u8], notes: &Notes) -> Result<String, Refusal> {
    if let Some(refusal) = admission(table) {
        return Err(refusal);
    }
    let run = Run::of(table);
    let mut text = header(table[4], &run, notes).to_string();
    for (number, row) in run.rows.iter().enumerate() {
        text += &format!("\n{}", row_object(number, *row, notes));
    }
    Ok(text + "\n")
}

fn header(version: u8, run: &Run, notes: &Notes) -> Object {
    let mut members = Object::default();
    members.put("version", version);
    let agents = (0..run.agents.len()).map(|agent| {
        let mut members = Object::default();
        if run.has_hosts {
            members.text("kind", sort_word(run.sorts[agent]));
        }
        members.list("place", run.agents[agent]);
        if let Some(Some(name)) = notes.agents.get(agent) {
            members.text("name", name);
        }
        members
    });
    members.list("agents", agents);
    let references = notes.references.iter();
    let references = references.map(|(number, name)| {
        let mut members = Object::default();
        members.put("reference", number);
        members.text("name", name);
        members
    });
    put_some(&mut members, "references", references);
    let dependencies = run.dependencies.iter();
    let dependencies = dependencies.map(|[first, second]| format!("[{first},{second}]"));
    put_some(&mut members, "dependencies", dependencies);
    members
}

/// A list, unless it is empty.
fn put_some(object: &mut Object, key: &str, items: impl Iterator<Item: Display>) {
    let mut items = items.peekable();
    if items.peek().is_some() {
        object.list(key, items);
    }
}

fn row_object(number: usize, row: Row, notes: &Notes) -> Object {
    let mut members = Object::default();
    members.put("agent", row.agent);
    members.text("kind", &kind_word(row.kind));
    if row.is_access() {
        members.put("reference", row.reference);
        members.text("class", class_word(row.class));
        members.put("start", row.start);
        members.put("length", row.length);
    }
    if row.is_control_barrier() {
        members.text("execution", &scope_word(row.execution_scope()));
        members.put("instance", row.instance());
    }
    if row.is_atomic() || row.is_barrier() {
        members.text("order", order_word(row.order));
    }
    let is_flagged = row.makes_available() || row.makes_visible();
    if row.is_atomic() || row.is_barrier() || is_flagged {
        members.text("scope", &scope_word(row.scope));
    }
    let classes = classes_of(row.classes).into_iter().map(Quoted);
    put_some(&mut members, "semantics", classes);
    let flags = FLAGS.iter().filter(|(_, _, bit)| row.flags & bit != 0);
    put_some(
        &mut members,
        "flags",
        flags.map(|(_, name, _)| Quoted(name)),
    );
    if row.reads() {
        match row.source {
            second::INITIAL => members.text("source", INITIAL),
            second::BLANK => members.text("source", BLANK),
            source => members.put("source", source),
        }
    }
    if row.is_atomic_writer() {
        members.put("rank", row.rank);
    }
    if let Some(label) = notes.label(number) {
        members.text("label", label);
    }
    if let Some(place) = notes.place(number) {
        members.text("at", &place.to_string());
    }
    members
}
