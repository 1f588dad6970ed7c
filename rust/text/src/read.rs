//! Text read: the version, then agents, references, rows and dependencies, a
//! line each.

use crate::draft::Draft;
use crate::row::Reader as RowReader;
use crate::tokens::{line, Line, Token};
use crate::trouble::{Spot, Trouble};
use crate::vocabulary::{
    article, bad_name, class_code, class_words, number, sort_code, AGENT, DEPENDENCY, HEAD,
    REFERENCE,
};
use mend::{Place, RowNote};
use second::table::{SHADER, WITH_HOSTS};
use std::collections::HashMap;

/// What has been read so far.
pub struct Reading {
    pub draft: Draft,
    pub agents: HashMap<String, u8>,
    /// Numbers and classes by name.
    pub references: HashMap<String, (u16, u8)>,
    labels: HashMap<String, u16>,
    /// Rows whose sources are labels: these may come later.
    sources: Vec<(usize, String, Spot)>,
    dependencies: Vec<([(String, Spot); 2], Spot)>,
}

/// Reads a text.
pub fn read(text: &str) -> Result<Draft, Trouble> {
    let lines = text.split('\n').enumerate();
    let lines = lines.map(|(place, text)| line(place + 1, text));
    let mut lines = lines.filter(|line| !line.tokens.is_empty() || line.place.is_some());
    let mut reading = match lines.next() {
        Some(first) => Reading::of(&first)?,
        None => return Err(Spot { line: 1, column: 1 }.trouble("expected `stramashly 1`")),
    };
    for line in lines {
        reading.push(&line)?;
    }
    reading.finish()
}

impl Reading {
    /// Begins with the line that has the version.
    fn of(line: &Line) -> Result<Reading, Trouble> {
        let mut words = Words::of(line);
        words.expect(HEAD)?;
        let version = words.next("a version: 1, 2 or 3")?;
        let versions = 1..=u32::from(WITH_HOSTS);
        let number = number(version.word, u32::from(WITH_HOSTS)).ok();
        let Some(number) = number.filter(|number| versions.contains(number)) else {
            let reason = format!("expected a version: 1, 2 or 3, not `{}`", version.word);
            return Err(version.spot.trouble(reason));
        };
        words.finish()?;
        let draft = Draft {
            version: number as u8,
            ..Draft::default()
        };
        Ok(Reading {
            draft,
            agents: HashMap::new(),
            references: HashMap::new(),
            labels: HashMap::new(),
            sources: Vec::new(),
            dependencies: Vec::new(),
        })
    }

    fn push(&mut self, line: &Line) -> Result<(), Trouble> {
        let mut words = Words::of(line);
        match line.tokens.first().map(|token| token.word) {
            Some(AGENT) => self.push_agent(&mut words),
            Some(REFERENCE) => self.push_reference(&mut words),
            Some(DEPENDENCY) => self.push_dependency(&mut words),
            Some(HEAD) => Err(line.tokens[0].spot.trouble("the version is said twice")),
            _ => self.push_row(line, words),
        }
    }

    /// `agent NAME = 0.0.0`, in version 3 also `= host`, `= queue 0.1.0`.
    fn push_agent(&mut self, words: &mut Words) -> Result<(), Trouble> {
        words.expect(AGENT)?;
        let name = words.name()?;
        words.expect("=")?;
        let what = "a place like 0.0.0, family, workgroup and subgroup";
        let mut place = words.next(what)?;
        let sort = sort_code(place.word).map(u16::from);
        let mut numbers = [0; 3];
        if sort.is_some() {
            // Hosts and queues are in no workgroup.
            if let Some(next) = words.peek() {
                place = next;
                words.at += 1;
                numbers = place_numbers(place)?;
            } else if sort == Some(SHADER) {
                words.next(what)?;
            }
        } else {
            numbers = place_numbers(place)?;
        }
        words.finish()?;
        let [family, workgroup, subgroup] = numbers;
        let number = self.draft.places.len() as u8;
        let place = [family, workgroup, subgroup, sort.unwrap_or(SHADER)];
        let known = self.agents.insert(name.word.to_string(), number);
        refuse_second(known, name, "agent")?;
        self.draft
            .push_agent(place, Some(name.word.to_string()), name.spot)
    }

    /// `ref NAME = 1 Uniform`.
    fn push_reference(&mut self, words: &mut Words) -> Result<(), Trouble> {
        words.expect(REFERENCE)?;
        let name = words.name()?;
        words.expect("=")?;
        let token = words.next("a reference's number")?;
        let number = at(token, number(token.word, 65535))? as u16;
        let class = words.next(&format!("a class: {}", class_words()))?;
        let Some(code) = class_code(class.word) else {
            let reason = format!("expected a class: {}, not `{}`", class_words(), class.word);
            return Err(class.spot.trouble(reason));
        };
        words.finish()?;
        let known = self
            .references
            .insert(name.word.to_string(), (number, code));
        refuse_second(known, name, "reference")?;
        let known = self
            .draft
            .notes
            .references
            .insert(number, name.word.to_string());
        match known {
            Some(other) => Err(token
                .spot
                .trouble(format!("reference {number} is called `{other}` already"))),
            None => Ok(()),
        }
    }

    /// `dependency LABEL before LABEL`.
    fn push_dependency(&mut self, words: &mut Words) -> Result<(), Trouble> {
        let begin = words.expect(DEPENDENCY)?;
        let first = words.next("a row's label")?;
        words.expect("before")?;
        let second = words.next("a row's label")?;
        words.finish()?;
        let rows = [first, second].map(|token| (token.word.to_string(), token.spot));
        self.dependencies.push((rows, begin.spot));
        Ok(())
    }

    fn push_row(&mut self, line: &Line, mut words: Words) -> Result<(), Trouble> {
        let Some(first) = line.tokens.first() else {
            let spot = line.place.map_or(line.end, |place| place.spot);
            return Err(spot.trouble("expected a row before its place"));
        };
        let mut label = None;
        if let Some(name) = first.word.strip_suffix(':') {
            if let Some(reason) = bad_name(name) {
                return Err(first.spot.trouble(reason));
            }
            words.at += 1;
            let known = self
                .labels
                .insert(name.to_string(), self.draft.rows.len() as u16);
            let token = Token {
                word: name,
                ..*first
            };
            refuse_second(known, token, "row")?;
            label = Some(name.to_string());
        }
        let (row, source) = RowReader::new(self, &mut words).read()?;
        let place = match line.place {
            Some(token) => Some(at(token, Place::parse(token.word))?),
            None => None,
        };
        if let Some((name, spot)) = source {
            self.sources.push((self.draft.rows.len(), name, spot));
        }
        let spot = (first.spot.line, first.spot.column);
        self.draft.push_row(row, RowNote { label, place, spot })
    }

    fn labelled(&self, name: &str, spot: Spot) -> Result<u16, Trouble> {
        let row = self.labels.get(name).copied();
        row.ok_or_else(|| spot.trouble(format!("no row has the label `{name}`")))
    }

    /// Puts rows in the place of labels.
    fn finish(mut self) -> Result<Draft, Trouble> {
        let sources = std::mem::take(&mut self.sources);
        for (row, name, spot) in &sources {
            self.draft.rows[*row].source = self.labelled(name, *spot)?;
        }
        let dependencies = std::mem::take(&mut self.dependencies);
        for ([first, second], spot) in &dependencies {
            let first = self.labelled(&first.0, first.1)?;
            let second = self.labelled(&second.0, second.1)?;
            self.draft.push_dependency([first, second], *spot)?;
        }
        Ok(self.draft)
    }
}

/// What is declared once can't be again.
fn refuse_second<T>(known: Option<T>, name: Token, what: &str) -> Result<(), Trouble> {
    match known {
        Some(_) => Err(name.spot.trouble(format!(
            "there is {} {what} `{}` already",
            article(what),
            name.word
        ))),
        None => Ok(()),
    }
}

/// A result whose trouble is at a word.
pub fn at<T>(token: Token, result: Result<T, String>) -> Result<T, Trouble> {
    result.map_err(|reason| token.spot.trouble(reason))
}

/// `0.0.0`: family, workgroup and subgroup.
fn place_numbers(token: Token) -> Result<[u16; 3], Trouble> {
    let parts: Vec<&str> = token.word.split('.').collect();
    let [family, workgroup, subgroup] = parts[..] else {
        let reason = format!("expected a place like 0.0.0, not `{}`", token.word);
        return Err(token.spot.trouble(reason));
    };
    let read = |part| at(token, number(part, 65535)).map(|number| number as u16);
    Ok([read(family)?, read(workgroup)?, read(subgroup)?])
}

/// The words of a line, one after the other.
pub struct Words<'a> {
    tokens: &'a [Token<'a>],
    place: Option<Token<'a>>,
    pub at: usize,
    pub end: Spot,
}

impl<'a> Words<'a> {
    fn of(line: &'a Line<'a>) -> Words<'a> {
        Words {
            tokens: &line.tokens,
            place: line.place,
            at: 0,
            end: line.end,
        }
    }

    pub fn peek(&self) -> Option<Token<'a>> {
        self.tokens.get(self.at).copied()
    }

    /// The next word, or what was expected in its place.
    pub fn next(&mut self, expected: &str) -> Result<Token<'a>, Trouble> {
        let token = self.peek();
        self.at += 1;
        token.ok_or_else(|| self.end.trouble(format!("expected {expected}")))
    }

    /// The very word.
    pub fn expect(&mut self, word: &str) -> Result<Token<'a>, Trouble> {
        let token = self.next(&format!("`{word}`"))?;
        if token.word != word {
            let reason = format!("expected `{word}`, not `{}`", token.word);
            return Err(token.spot.trouble(reason));
        }
        Ok(token)
    }

    pub fn name(&mut self) -> Result<Token<'a>, Trouble> {
        let token = self.next("a name")?;
        match bad_name(token.word) {
            Some(reason) => Err(token.spot.trouble(reason)),
            None => Ok(token),
        }
    }

    /// The code of the next words, which may be joined by hyphens or not, the
    /// most words first.
    pub fn phrase(&mut self, code: impl Fn(&str) -> Option<u8>) -> Option<(u8, Token<'a>)> {
        const MOST_WORDS: usize = 7;
        let rest = &self.tokens[self.at.min(self.tokens.len())..];
        for count in (1..=MOST_WORDS.min(rest.len())).rev() {
            let words: Vec<&str> = rest[..count].iter().map(|token| token.word).collect();
            if let Some(code) = code(&words.join("-")) {
                self.at += count;
                return Some((code, rest[0]));
            }
        }
        None
    }

    /// Nothing may follow, nor a place in a program.
    fn finish(&self) -> Result<(), Trouble> {
        if let Some(token) = self.peek() {
            let reason = format!("expected the line's end, not `{}`", token.word);
            return Err(token.spot.trouble(reason));
        }
        match self.place {
            Some(place) => Err(place.spot.trouble("only rows have a place")),
            None => Ok(()),
        }
    }
}
