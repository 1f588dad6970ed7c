//! Shared by the tests: generated tables, and a reader of markup.

#![allow(dead_code)]

use mend::{of_second, Judge, Notes, Relations};
use second::{Chains, State, CYCLE_NUMBERS, SOURCE_NUMBERS, WORK_WORDS};
use std::collections::BTreeSet;
use stramashly::{CheckAnswer, DeriveAnswer, FillAnswer, OwnedCheckAnswer};
use tables::{checkable, Random, Size};
use words::Checked;

/// Generated tables of so many rows, as bytes.
pub fn generated(seed: u64, count: usize, least: usize, most: usize) -> Vec<Vec<u8>> {
    let mut random = Random::new(seed);
    (0..count)
        .map(|_| checkable(&mut random, Size { least, most }).bytes())
        .collect()
}

/// An example's bytes.
pub fn example(name: &str) -> Vec<u8> {
    let mut examples = tables::examples().into_iter();
    examples
        .find(|example| example.name == name)
        .expect(name)
        .bytes
}

/// The relations of a table, whatever the second implementation answers.
pub fn with_relations<T>(table: &[u8], ask: impl FnOnce(Checked) -> T) -> T {
    with_chains(Chains::Off, table, ask)
}

/// The relations with chains off or on.
pub fn with_chains<T>(chains: Chains, table: &[u8], ask: impl FnOnce(Checked) -> T) -> T {
    let relations = Relations::of(chains, table, &Notes::default());
    ask(Checked::from(&relations))
}

/// The second implementation in the library's place, for versions that the
/// linked one may not take. It finds no derivations.
pub struct Second {
    state: State,
    chains: Chains,
    answer: OwnedCheckAnswer,
    sources: Vec<u16>,
}

impl Second {
    pub fn new() -> Second {
        Second::with(Chains::Off)
    }

    pub fn with(chains: Chains) -> Second {
        Second {
            state: State::new(),
            chains,
            answer: OwnedCheckAnswer::RaceFree,
            sources: Vec::new(),
        }
    }
}

impl Judge for Second {
    fn check(&mut self, table: &[u8]) -> CheckAnswer<'_> {
        let (state, chains) = (&mut self.state, self.chains);
        self.answer = of_second(&state.check_with(chains, table, WORK_WORDS, CYCLE_NUMBERS));
        self.answer.borrowed()
    }

    fn fill(&mut self, table: &[u8]) -> FillAnswer<'_> {
        match self
            .state
            .fill_with(self.chains, table, WORK_WORDS, SOURCE_NUMBERS)
        {
            second::FillAnswer::TooMany => panic!("too many fillings for a test"),
            second::FillAnswer::None => FillAnswer::None,
            second::FillAnswer::Race {
                first,
                second,
                byte,
            } => FillAnswer::Race {
                first,
                second,
                byte,
            },
            second::FillAnswer::Filled(sources) => {
                self.sources = sources.as_slice().to_vec();
                FillAnswer::Filled(&self.sources)
            }
            second::FillAnswer::Refused { number, row } => FillAnswer::Refused {
                number: number.into(),
                row,
            },
        }
    }

    fn derive(&mut self, _: &[u8], _: u16, _: u16) -> DeriveAnswer<'_> {
        DeriveAnswer::NotBefore
    }

    fn chains(&self) -> Chains {
        self.chains
    }
}

/// The elements of a document in order, each with its attributes. Panics
/// where it isn't well-formed.
pub fn elements(text: &str) -> Vec<Element> {
    let mut open: Vec<String> = Vec::new();
    let mut elements = Vec::new();
    let mut rest = text.strip_prefix("<!DOCTYPE html>").unwrap_or(text);
    while let Some(start) = rest.find('<') {
        check_text(&rest[..start]);
        let end = start + rest[start..].find('>').expect("a tag ends");
        let tag = &rest[start + 1..end];
        rest = &rest[end + 1..];
        if let Some(name) = tag.strip_prefix('/') {
            assert_eq!(open.pop().as_deref(), Some(name), "closed in turn");
            continue;
        }
        let (tag, is_closed) = match tag.strip_suffix('/') {
            Some(tag) => (tag, true),
            None => (tag, false),
        };
        let element = element(tag);
        if !is_closed {
            open.push(element.name.clone());
        }
        elements.push(element);
    }
    assert!(rest.trim().is_empty() && open.is_empty(), "{open:?} {rest}");
    check_ids(&elements);
    elements
}

/// A tag's name and attributes.
#[derive(Debug)]
pub struct Element {
    pub name: String,
    pub attributes: Vec<(String, String)>,
}

impl Element {
    pub fn get(&self, name: &str) -> Option<&str> {
        let mut attributes = self.attributes.iter();
        let found = attributes.find(|(other, _)| other == name);
        found.map(|(_, value)| value.as_str())
    }

    pub fn number(&self, name: &str) -> Option<i32> {
        self.get(name)?.parse().ok()
    }

    pub fn has_class(&self, class: &str) -> bool {
        let classes = self.get("class").unwrap_or_default();
        classes.split(' ').any(|other| other == class)
    }
}

fn element(tag: &str) -> Element {
    let (name, mut rest) = tag.split_once(' ').unwrap_or((tag, ""));
    assert!(
        !name.is_empty() && name.chars().all(char::is_alphanumeric),
        "{tag}"
    );
    let mut attributes: Vec<(String, String)> = Vec::new();
    while !rest.trim().is_empty() {
        let (key, after) = rest.split_once("=\"").expect(tag);
        let (value, after) = after.split_once('"').expect(tag);
        check_text(value);
        let key = key.trim().to_string();
        assert!(attributes.iter().all(|(other, _)| *other != key), "{tag}");
        attributes.push((key, value.to_string()));
        rest = after;
    }
    Element {
        name: name.to_string(),
        attributes,
    }
}

/// Text has no bare ampersand and no letter that XML forbids.
fn check_text(text: &str) {
    for part in text.split('&').skip(1) {
        let (entity, _) = part.split_once(';').expect("an entity ends");
        let known = ["amp", "lt", "gt", "quot", "#39"];
        assert!(known.contains(&entity), "{entity}");
    }
    assert!(!text.chars().any(|letter| letter < ' ' && letter != '\n'));
}

/// Names are given once, and every reference to one has its target.
fn check_ids(elements: &[Element]) {
    let ids: Vec<&str> = elements.iter().filter_map(|tag| tag.get("id")).collect();
    let distinct: BTreeSet<&str> = ids.iter().copied().collect();
    assert_eq!(distinct.len(), ids.len(), "{ids:?}");
    for value in elements.iter().filter_map(|tag| tag.get("marker-end")) {
        let name = value
            .strip_prefix("url(#")
            .and_then(|name| name.strip_suffix(')'));
        assert!(distinct.contains(name.unwrap()), "{value}");
    }
}
