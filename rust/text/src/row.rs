//! A row's line read: agent, kind, reference and bytes, then words in any
//! order, each once.

use crate::read::{at, Reading, Words};
use crate::said::{Part, Said};
use crate::tokens::Token;
use crate::trouble::{Spot, Trouble};
use crate::vocabulary::{
    class_code, class_words, kind_code, kind_words, number, order_code, order_words, scope_code,
    scope_words, BLANK, FLAGS, INITIAL, PRIVATE,
};
use second::table::{Row, ATOMIC_RMW};

/// A source that is a row's label, and its place.
type Label = Option<(String, Spot)>;

/// The longest access, and how many bytes there are.
const MOST_BYTES: u32 = 16;
const ALL_BYTES: u32 = 65536;

/// Reads one row.
pub struct Reader<'a, 'b> {
    reading: &'a Reading,
    words: &'a mut Words<'b>,
    label: Label,
}

impl<'a, 'b> Reader<'a, 'b> {
    pub fn new(reading: &'a Reading, words: &'a mut Words<'b>) -> Reader<'a, 'b> {
        Reader {
            reading,
            words,
            label: None,
        }
    }

    /// The row, with a label that its source is to be found by.
    pub fn read(mut self) -> Result<(Row, Label), Trouble> {
        let name = self.words.next("an agent's name")?;
        let Some(agent) = self.reading.agents.get(name.word) else {
            let reason = format!("no agent is called `{}`", name.word);
            return Err(name.spot.trouble(reason));
        };
        let mut said = Said::new(self.kind()?, *agent);
        if said.kind <= ATOMIC_RMW {
            self.access(&mut said)?;
        }
        while let Some(token) = self.words.peek() {
            self.word(token, &mut said)?;
        }
        let end = self.words.end;
        let missing = |part| end.trouble(format!("expected {}", asked(part)));
        Ok((said.row(missing)?, self.label))
    }

    fn kind(&mut self) -> Result<u8, Trouble> {
        let token = self.words.peek();
        let last = self.reading.draft.last_kind();
        match self.words.phrase(kind_code) {
            Some((kind, _)) if kind <= last => Ok(kind),
            Some((_, token)) => Err(token
                .spot
                .trouble("only version 3 has operations of queues")),
            None => {
                let expected = format!("expected a kind of row: {}", kind_words());
                Err(match token {
                    Some(token) => token
                        .spot
                        .trouble(format!("{expected}; not `{}`", token.word)),
                    None => self.words.end.trouble(expected),
                })
            }
        }
    }

    /// The reference and the bytes.
    fn access(&mut self, said: &mut Said) -> Result<(), Trouble> {
        let name = self.words.next("a reference's name")?;
        let Some((reference, class)) = self.reading.references.get(name.word) else {
            let reason = format!("no reference is called `{}`", name.word);
            return Err(name.spot.trouble(reason));
        };
        said.put(Part::Reference, *reference, name.spot)?;
        said.put(Part::Class, u16::from(*class), name.spot)?;
        let token = self.words.next("bytes like 0..4")?;
        let (start, length) = at(token, range(token.word))?;
        said.put(Part::Start, start, token.spot)?;
        said.put(Part::Length, length, token.spot)
    }

    fn word(&mut self, token: Token, said: &mut Said) -> Result<(), Trouble> {
        let spot = token.spot;
        match token.word {
            "from" => return self.source(said),
            "rank" => return self.counted(Part::Rank, said),
            "instance" => return self.counted(Part::Instance, said),
            "execution" => {
                self.words.at += 1;
                let expected = format!("expected an execution scope: {}", scope_words());
                let Some((scope, _)) = self.words.phrase(scope_code) else {
                    let place = self.words.peek().map_or(self.words.end, |token| token.spot);
                    return Err(place.trouble(expected));
                };
                return said.put(Part::Execution, u16::from(scope), spot);
            }
            PRIVATE => {
                self.words.at += 1;
                return said.put(Part::NonPrivate, 0, spot);
            }
            word if word.starts_with('{') => {
                self.words.at += 1;
                let set = at(token, class_set(word))?;
                return said.put(Part::Semantics, set, spot);
            }
            _ => (),
        }
        if let Some((order, _)) = self.words.phrase(order_code) {
            return said.put(Part::Order, u16::from(order), spot);
        }
        if let Some((scope, _)) = self.words.phrase(scope_code) {
            return said.put(Part::Scope, u16::from(scope), spot);
        }
        let flag = |word: &str| FLAGS.iter().position(|(_, name, _)| *name == word);
        if let Some((flag, _)) = self
            .words
            .phrase(|word| flag(word).map(|place| place as u8))
        {
            let (part, _, bit) = FLAGS[usize::from(flag)];
            return said.put(part, u16::from(bit), spot);
        }
        let expected = "an order, a scope, classes like {Uniform}, non-private, make-available, make-visible, from, rank, execution, instance or @";
        Err(spot.trouble(format!("expected {expected}; not `{}`", token.word)))
    }

    /// `from LABEL`, `from initial`, `from ?`.
    fn source(&mut self, said: &mut Said) -> Result<(), Trouble> {
        let from = self.words.expect("from")?;
        let token = self.words.next("a row's label, `initial` or `?`")?;
        match token.word {
            INITIAL => said.put(Part::Source, second::INITIAL, from.spot),
            BLANK => said.put(Part::Source, second::BLANK, from.spot),
            label => {
                self.label = Some((label.to_string(), token.spot));
                said.put(Part::Source, second::INITIAL, from.spot)
            }
        }
    }

    /// A word and its number.
    fn counted(&mut self, part: Part, said: &mut Said) -> Result<(), Trouble> {
        let word = self.words.next("")?;
        let token = self.words.next("a number from 0 to 65535")?;
        let value = at(token, number(token.word, 65535))?;
        said.put(part, value as u16, word.spot)
    }
}

/// What is asked for where a field is missing.
fn asked(part: Part) -> String {
    match part {
        Part::Order => format!("an order: {}", order_words()),
        Part::Scope => format!("a scope: {}", scope_words()),
        Part::Execution => "an execution scope, like `execution workgroup`".to_string(),
        Part::Instance => "an instance, like `instance 0`".to_string(),
        Part::Source => "a source: `from` and a label, `initial` or `?`".to_string(),
        Part::Rank => "a rank, like `rank 1`".to_string(),
        _ => format!("a {}", part.name()),
    }
}

/// `0..4`: the first byte, and the first that is no longer meant.
fn range(word: &str) -> Result<(u16, u16), String> {
    let bad = || format!("expected bytes like 0..4, not `{word}`");
    let (start, end) = word.split_once("..").ok_or_else(bad)?;
    let start = number(start, ALL_BYTES - 1)?;
    let end = number(end, ALL_BYTES)?;
    let length = end.saturating_sub(start);
    if !(1..=MOST_BYTES).contains(&length) {
        return Err(format!(
            "expected 1 to {MOST_BYTES} bytes, from the first up to the one after the last, not `{word}`"
        ));
    }
    Ok((start as u16, length as u16))
}

/// `{Uniform+Image}`: classes, each once.
fn class_set(word: &str) -> Result<u16, String> {
    let expected = || format!("expected classes like {{Uniform+Image}}, not `{word}`");
    let inner = word
        .strip_prefix('{')
        .and_then(|word| word.strip_suffix('}'));
    let mut set = 0;
    for name in inner.ok_or_else(expected)?.split('+') {
        let class = class_code(name)
            .ok_or_else(|| format!("expected a class: {}, not `{name}`", class_words()))?;
        if set >> class & 1 == 1 {
            return Err(format!("the class {name} is said twice"));
        }
        set |= 1 << class;
    }
    Ok(set)
}
