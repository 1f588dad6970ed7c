//! The words for a table's codes. A code that has none is shown as its
//! number with a question mark, so that refused tables can be shown too.

use second::table::{Row, MAKE_AVAILABLE, MAKE_VISIBLE, NON_PRIVATE};
use second::{BLANK, INITIAL};

/// The kinds of rows, by their codes.
pub const KINDS: [&str; 13] = [
    "plain read",
    "plain write",
    "atomic read",
    "atomic write",
    "read-modify-write",
    "barrier",
    "control barrier",
    "availability to host",
    "availability to device",
    "visibility from host",
    "visibility from device",
    "domain operation from host to device",
    "domain operation from device to host",
];
/// What an agent can be.
pub const SORTS: [&str; 3] = ["shader", "host", "queue"];
/// The last sort of an agent and the last class that have a meaning.
pub const LAST_SORT: u16 = SORTS.len() as u16 - 1;
pub const LAST_CLASS: u8 = CLASSES.len() as u8 - 1;
/// The orders.
pub const ORDERS: [&str; 4] = ["relaxed", "acquire", "release", "acquire-release"];
/// The scopes.
pub const SCOPES: [&str; 5] = [
    "invocation",
    "subgroup",
    "workgroup",
    "queue family",
    "device",
];
/// The classes.
pub const CLASSES: [&str; 4] = ["Uniform", "Workgroup", "Image", "Output"];
const FLAGS: [(u8, &str); 3] = [
    (NON_PRIVATE, "non-private"),
    (MAKE_AVAILABLE, "make available"),
    (MAKE_VISIBLE, "make visible"),
];

fn named(words: &[&str], code: impl Into<usize>) -> String {
    let code = code.into();
    let word = words.get(code).map(ToString::to_string);
    word.unwrap_or_else(|| format!("{code}?"))
}

pub fn kind(code: u8) -> String {
    named(&KINDS, code)
}

/// `a` or `an`, whichever goes before the words.
pub fn article(words: &str) -> &'static str {
    if words.starts_with(['a', 'e', 'i', 'o', 'u']) {
        "an"
    } else {
        "a"
    }
}

/// What an agent is.
pub fn sort(code: u16) -> String {
    named(&SORTS, code)
}

pub fn order(code: u8) -> String {
    named(&ORDERS, code)
}

pub fn scope(code: u8) -> String {
    named(&SCOPES, code)
}

pub fn class(code: u8) -> String {
    named(&CLASSES, code)
}

/// A set of classes, joined by `+`.
pub fn classes(set: u8) -> String {
    if set > 15 {
        return format!("{set}?");
    }
    let held = (0..4).filter(|class| set >> class & 1 == 1).map(class);
    or_dash(held.collect::<Vec<_>>().join("+"))
}

pub fn flags(set: u8) -> String {
    if set > 7 {
        return format!("{set}?");
    }
    let held = FLAGS.iter().filter(|(bit, _)| set & bit != 0);
    or_dash(held.map(|(_, word)| *word).collect::<Vec<_>>().join(", "))
}

/// A row's source; a dash for a row that doesn't read and says so.
pub fn source(row: Row) -> String {
    match row.source {
        INITIAL if row.reads() => "initial value".to_string(),
        INITIAL => "-".to_string(),
        BLANK => "blank".to_string(),
        number => format!("row {number}"),
    }
}

/// The first and the last byte of an access.
pub fn bytes(row: Row) -> String {
    match row.length {
        0 => format!("none at {}", row.start),
        1 => row.start.to_string(),
        _ => format!("{} to {}", row.start, row.end_byte() - 1),
    }
}

/// `byte 3`, `bytes 0 to 3`.
pub fn byte_words(row: Row) -> String {
    let noun = if row.length == 1 { "byte" } else { "bytes" };
    format!("{noun} {}", bytes(row))
}

fn or_dash(text: String) -> String {
    if text.is_empty() {
        "-".to_string()
    } else {
        text
    }
}

/// Names in a row: `a`, `a and b`, `a, b and c`.
pub fn listed(names: &[String]) -> String {
    match names {
        [] => String::new(),
        [only] => only.clone(),
        [rest @ .., last] => format!("{} and {last}", rest.join(", ")),
    }
}

/// A count with its noun, which takes an s unless there is one.
pub fn counted(count: usize, noun: &str) -> String {
    let ending = if count == 1 { "" } else { "s" };
    format!("{count} {noun}{ending}")
}

/// `row 3`, `rows 3, 4 and 7`.
pub fn rows(rows: &[usize]) -> String {
    let numbers: Vec<String> = rows.iter().map(usize::to_string).collect();
    let noun = if rows.len() == 1 { "row" } else { "rows" };
    format!("{noun} {}", listed(&numbers))
}

/// A source that is no blank.
pub fn source_named(source: u16) -> String {
    match source {
        INITIAL => "the initial value".to_string(),
        row => format!("row {row}"),
    }
}
