//! JSON lines read: an object with version, agents and dependencies, then an
//! object for each row.

use crate::draft::Draft;
use crate::json::{parse, Member, Node, Value};
use crate::said::{Part, Said};
use crate::trouble::{Spot, Trouble};
use crate::vocabulary::{
    bad_name, class_code, class_words, kind_code, kind_words, number, order_code, order_words,
    scope_code, scope_words, sort_code, BLANK, FLAGS, INITIAL,
};
use mend::{Place, RowNote};
use second::table::{SHADER, WITH_HOSTS};
use std::collections::HashSet;

/// Names that have been given.
#[derive(Default)]
struct Taken {
    agents: HashSet<String>,
    references: HashSet<String>,
    labels: HashSet<String>,
}

/// Reads JSON lines.
pub fn read(text: &str) -> Result<Draft, Trouble> {
    let lines = text.split('\n').enumerate();
    let lines = lines.filter(|(_, text)| {
        let text = text.trim();
        !text.is_empty() && !text.starts_with('#')
    });
    let mut lines = lines.map(|(place, text)| (place + 1, text));
    let mut taken = Taken::default();
    let mut draft = Draft::default();
    let Some((line, text)) = lines.next() else {
        return Err(Spot { line: 1, column: 1 }.trouble("expected an object with \"version\""));
    };
    let dependencies = header(&mut draft, &mut taken, &parse(line, text)?)?;
    for (line, text) in lines {
        row(&mut draft, &mut taken, &parse(line, text)?)?;
    }
    for node in &dependencies {
        let numbers = numbers(node, 2, "two rows, like [0,1]")?;
        if let Some(missing) = numbers
            .iter()
            .find(|row| usize::from(**row) >= draft.rows.len())
        {
            return Err(node.spot.trouble(format!("there is no row {missing}")));
        }
        draft.push_dependency([numbers[0], numbers[1]], node.spot)?;
    }
    Ok(draft)
}

/// Takes the header in; its dependencies wait for the rows.
fn header(draft: &mut Draft, taken: &mut Taken, node: &Node) -> Result<Vec<Node>, Trouble> {
    let members = object(node, &["version", "agents", "references", "dependencies"])?;
    let version = needed(node, members, "version")?;
    draft.version = whole(version, u32::from(WITH_HOSTS))? as u8;
    if draft.version == 0 {
        return Err(version.spot.trouble("expected a version: 1, 2 or 3"));
    }
    for agent in list(needed(node, members, "agents")?)? {
        push_agent(draft, taken, agent)?;
    }
    for reference in found(members, "references").map_or(Ok(&[][..]), list)? {
        let members = object(reference, &["reference", "name"])?;
        let number = needed(reference, members, "reference")?;
        let name = needed(reference, members, "name")?;
        let name_text = name_of(name, &mut taken.references)?;
        let key = whole(number, 65535)? as u16;
        if draft.notes.references.insert(key, name_text).is_some() {
            let reason = format!("reference {key} has a name already");
            return Err(number.spot.trouble(reason));
        }
    }
    Ok(found(members, "dependencies")
        .map_or(Ok(&[][..]), list)?
        .to_vec())
}

fn push_agent(draft: &mut Draft, taken: &mut Taken, node: &Node) -> Result<(), Trouble> {
    let members = object(node, &["place", "kind", "name"])?;
    let sort = match found(members, "kind") {
        Some(kind) => coded(kind, "an agent's kind: shader, host or queue", sort_code)?,
        None => SHADER,
    };
    let place = match (found(members, "place"), sort) {
        (None, SHADER) => Err(missing(node, "place"))?,
        // Hosts and queues are in no workgroup.
        (None, _) => vec![0; 3],
        (Some(place), _) => numbers(place, 3, "family, workgroup and subgroup, like [0,0,0]")?,
    };
    let name = found(members, "name");
    let name = name
        .map(|name| name_of(name, &mut taken.agents))
        .transpose()?;
    draft.push_agent([place[0], place[1], place[2], sort], name, node.spot)
}

/// A row's keys that are fields, and what reads them.
type Field = (&'static str, Part, fn(&Node) -> Result<u16, Trouble>);

const FIELDS: [Field; 11] = [
    ("reference", Part::Reference, two_bytes),
    ("class", Part::Class, |node| {
        coded(node, &format!("a class: {}", class_words()), class_code)
    }),
    ("start", Part::Start, two_bytes),
    ("length", Part::Length, length),
    ("execution", Part::Execution, scope),
    ("instance", Part::Instance, two_bytes),
    ("order", Part::Order, |node| {
        coded(node, &format!("an order: {}", order_words()), order_code)
    }),
    ("scope", Part::Scope, scope),
    ("semantics", Part::Semantics, semantics),
    ("source", Part::Source, source),
    ("rank", Part::Rank, two_bytes),
];

fn row(draft: &mut Draft, taken: &mut Taken, node: &Node) -> Result<(), Trouble> {
    let mut keys: Vec<&str> = vec!["agent", "kind", "flags", "label", "at"];
    keys.extend(FIELDS.iter().map(|(key, ..)| *key));
    let members = object(node, &keys)?;
    let agent = needed(node, members, "agent")?;
    let number = whole(agent, 255)?;
    if number as usize >= draft.places.len() {
        return Err(agent.spot.trouble(format!("there is no agent {number}")));
    }
    let expected = format!("a kind of row: {}", kind_words());
    let kind = needed(node, members, "kind")?;
    let code = coded(kind, &expected, kind_code)? as u8;
    if code > draft.last_kind() {
        return Err(kind.spot.trouble("only version 3 has operations of queues"));
    }
    let mut said = Said::new(code, number as u8);
    for (key, part, read) in FIELDS {
        if let Some(member) = members.iter().find(|member| member.key == key) {
            said.put(part, read(&member.node)?, member.spot)?;
        }
    }
    for flag in found(members, "flags").map_or(Ok(&[][..]), list)? {
        let word = text(flag)?;
        let Some((part, _, bit)) = FLAGS.iter().find(|(_, name, _)| *name == word) else {
            let names = FLAGS.map(|(_, name, _)| name).join(", ");
            let reason = format!("expected a flag: {names}, not \"{word}\"");
            return Err(flag.spot.trouble(reason));
        };
        said.put(*part, u16::from(*bit), flag.spot)?;
    }
    let label = found(members, "label");
    let label = label
        .map(|label| name_of(label, &mut taken.labels))
        .transpose()?;
    let place = found(members, "at").map(|at| {
        let place = Place::parse(text(at)?);
        place.map_err(|reason| at.spot.trouble(reason))
    });
    let place = place.transpose()?;
    let spot = (node.spot.line, node.spot.column);
    let lacking = |part| {
        let field = FIELDS.iter().find(|(_, other, _)| *other == part);
        missing(node, field.map_or("flags", |(key, ..)| key))
    };
    draft.push_row(said.row(lacking)?, RowNote { label, place, spot })
}

fn two_bytes(node: &Node) -> Result<u16, Trouble> {
    whole(node, 65535).map(|number| number as u16)
}

fn length(node: &Node) -> Result<u16, Trouble> {
    match whole(node, 255)? {
        length @ 1..=16 => Ok(length as u16),
        length => Err(node
            .spot
            .trouble(format!("expected 1 to 16 bytes, not {length}"))),
    }
}

fn scope(node: &Node) -> Result<u16, Trouble> {
    coded(node, &format!("a scope: {}", scope_words()), scope_code)
}

fn semantics(node: &Node) -> Result<u16, Trouble> {
    let mut set = 0;
    for class in list(node)? {
        let code = coded(class, &format!("a class: {}", class_words()), class_code)?;
        if set >> code & 1 == 1 {
            return Err(class.spot.trouble("a class is said twice"));
        }
        set |= 1 << code;
    }
    Ok(set)
}

/// A row's number, `"initial"` or `"?"`.
fn source(node: &Node) -> Result<u16, Trouble> {
    match &node.value {
        Value::Text(word) if word == INITIAL => Ok(second::INITIAL),
        Value::Text(word) if word == BLANK => Ok(second::BLANK),
        Value::Number(_) => whole(node, u32::from(second::BLANK) - 1).map(|row| row as u16),
        _ => Err(node
            .spot
            .trouble("expected a row's number, \"initial\" or \"?\"")),
    }
}

// ---- values

/// The members of an object that has only these keys.
fn object<'a>(node: &'a Node, keys: &[&str]) -> Result<&'a [Member], Trouble> {
    let Value::Object(members) = &node.value else {
        return Err(node.spot.trouble("expected an object"));
    };
    match members.iter().find(|member| !keys.contains(&&*member.key)) {
        Some(member) => {
            let reason = format!(
                "expected one of {}, not \"{}\"",
                keys.join(", "),
                member.key
            );
            Err(member.spot.trouble(reason))
        }
        None => Ok(members),
    }
}

fn found<'a>(members: &'a [Member], key: &str) -> Option<&'a Node> {
    let member = members.iter().find(|member| member.key == key);
    member.map(|member| &member.node)
}

fn missing(node: &Node, key: &str) -> Trouble {
    node.spot
        .trouble(format!("expected the key \"{key}\" in this object"))
}

fn needed<'a>(node: &Node, members: &'a [Member], key: &str) -> Result<&'a Node, Trouble> {
    found(members, key).ok_or_else(|| missing(node, key))
}

fn list(node: &Node) -> Result<&[Node], Trouble> {
    match &node.value {
        Value::List(nodes) => Ok(nodes),
        _ => Err(node.spot.trouble("expected a list")),
    }
}

fn text(node: &Node) -> Result<&str, Trouble> {
    match &node.value {
        Value::Text(text) => Ok(text),
        _ => Err(node.spot.trouble("expected a string")),
    }
}

fn whole(node: &Node, most: u32) -> Result<u32, Trouble> {
    let Value::Number(digits) = &node.value else {
        return Err(node
            .spot
            .trouble(format!("expected a number from 0 to {most}")));
    };
    number(digits, most).map_err(|reason| node.spot.trouble(reason))
}

/// A list of so many numbers of two bytes.
fn numbers(node: &Node, count: usize, expected: &str) -> Result<Vec<u16>, Trouble> {
    let nodes = list(node)?;
    if nodes.len() != count {
        return Err(node.spot.trouble(format!("expected {expected}")));
    }
    nodes.iter().map(two_bytes).collect()
}

fn coded(node: &Node, expected: &str, code: impl Fn(&str) -> Option<u8>) -> Result<u16, Trouble> {
    let word = text(node)?;
    let code = code(word).map(u16::from);
    code.ok_or_else(|| {
        node.spot
            .trouble(format!("expected {expected}; not \"{word}\""))
    })
}

/// A name that nothing else of its sort has.
fn name_of(node: &Node, taken: &mut HashSet<String>) -> Result<String, Trouble> {
    let name = text(node)?;
    if let Some(reason) = bad_name(name) {
        return Err(node.spot.trouble(reason));
    }
    if !taken.insert(name.to_string()) {
        return Err(node
            .spot
            .trouble(format!("the name \"{name}\" is given twice")));
    }
    Ok(name.to_string())
}
