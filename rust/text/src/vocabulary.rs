//! The words of both forms: those of `show`, with hyphens for the spaces.

use crate::said::Part;
use second::table::{
    ATOMIC_READ, ATOMIC_RMW, ATOMIC_WRITE, MAKE_AVAILABLE, MAKE_VISIBLE, NON_PRIVATE,
};
use words::{CLASSES, KINDS, ORDERS, SCOPES, SORTS};

/// The first word of a text.
pub const HEAD: &str = "stramashly";
/// The words that begin lines other than rows.
pub const AGENT: &str = "agent";
pub const REFERENCE: &str = "ref";
pub const DEPENDENCY: &str = "dependency";
/// What stands for the initial value, and for a blank.
pub const INITIAL: &str = "initial";
pub const BLANK: &str = "?";
/// Words that are no names.
const RESERVED: [&str; 5] = [HEAD, AGENT, REFERENCE, DEPENDENCY, INITIAL];

/// Shorter words for the first two kinds.
const SHORT_KINDS: [&str; 2] = ["read", "write"];
/// The flags, each a word of its own.
pub const FLAGS: [(Part, &str, u8); 3] = [
    (Part::NonPrivate, "non-private", NON_PRIVATE),
    (Part::MakeAvailable, "make-available", MAKE_AVAILABLE),
    (Part::MakeVisible, "make-visible", MAKE_VISIBLE),
];
pub const PRIVATE: &str = "private";

/// The code of a word, or of words joined by hyphens.
fn code(names: &[&str], word: &str) -> Option<u8> {
    let is_named = |name: &&str| hyphened(name) == word;
    names.iter().position(is_named).map(|place| place as u8)
}

fn hyphened(name: &str) -> String {
    name.replace(' ', "-")
}

pub fn kind_code(word: &str) -> Option<u8> {
    code(&KINDS, word).or_else(|| code(&SHORT_KINDS, word))
}

pub fn order_code(word: &str) -> Option<u8> {
    code(&ORDERS, word)
}

pub fn scope_code(word: &str) -> Option<u8> {
    code(&SCOPES, word)
}

pub fn class_code(word: &str) -> Option<u8> {
    code(&CLASSES, word)
}

pub fn sort_code(word: &str) -> Option<u8> {
    code(&SORTS, word)
}

pub fn kind_word(kind: u8) -> String {
    hyphened(KINDS[usize::from(kind)])
}

pub fn order_word(order: u8) -> &'static str {
    ORDERS[usize::from(order)]
}

pub fn scope_word(scope: u8) -> String {
    hyphened(SCOPES[usize::from(scope)])
}

pub fn class_word(class: u8) -> &'static str {
    CLASSES[usize::from(class)]
}

pub fn sort_word(sort: u16) -> &'static str {
    SORTS[usize::from(sort)]
}

/// The classes of a set, lowest first.
pub fn classes_of(set: u8) -> Vec<&'static str> {
    let held = (0..CLASSES.len()).filter(|class| set >> class & 1 == 1);
    held.map(|class| CLASSES[class]).collect()
}

/// What there is to choose from.
pub fn kind_words() -> String {
    listed(&KINDS)
}

pub fn order_words() -> String {
    listed(&ORDERS)
}

pub fn scope_words() -> String {
    listed(&SCOPES)
}

pub fn class_words() -> String {
    listed(&CLASSES)
}

fn listed(names: &[&str]) -> String {
    let names: Vec<String> = names.iter().map(|name| hyphened(name)).collect();
    match names.split_last() {
        Some((last, rest)) => format!("{} or {last}", rest.join(", ")),
        None => String::new(),
    }
}

/// What goes before a word.
pub fn article(word: &str) -> &'static str {
    if word.starts_with(['a', 'e', 'i', 'o', 'u']) {
        "an"
    } else {
        "a"
    }
}

pub fn is_atomic(kind: u8) -> bool {
    matches!(kind, ATOMIC_READ | ATOMIC_WRITE | ATOMIC_RMW)
}

/// Why a word is no name, if it isn't.
pub fn bad_name(word: &str) -> Option<String> {
    if RESERVED.contains(&word) {
        return Some(format!("`{word}` has a meaning of its own and is no name"));
    }
    let is_begin = |letter: char| letter.is_alphabetic() || letter == '_';
    let is_part = |letter: char| letter.is_alphanumeric() || "_-.".contains(letter);
    let is_name = word.starts_with(is_begin) && word.chars().all(is_part);
    (!is_name).then(|| {
        format!("expected a name of letters, digits, _, - and . that begins with a letter, not `{word}`")
    })
}

/// A number in digits, up to the most that it may be.
pub fn number(word: &str, most: u32) -> Result<u32, String> {
    let are_digits = !word.is_empty() && word.bytes().all(|letter| letter.is_ascii_digit());
    let value = word
        .parse()
        .ok()
        .filter(|value| are_digits && *value <= most);
    value.ok_or_else(|| format!("expected a number from 0 to {most}, not `{word}`"))
}
