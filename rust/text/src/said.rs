//! What is said of a row, field by field, and which fields its kind has. What
//! fits a kind in which combination is the library's to say.

use crate::trouble::{Spot, Trouble};
use crate::vocabulary::{article, is_atomic, kind_word, FLAGS};
use second::table::{Row, BARRIER, CONTROL_BARRIER, NON_PRIVATE, PLAIN_READ, PLAIN_WRITE};
use second::table::{ATOMIC_RMW, ATOMIC_WRITE};
use second::INITIAL;
use std::collections::BTreeMap;

/// A field of a row, or one of its flags.
#[derive(Clone, Copy, Debug, PartialEq, Eq, PartialOrd, Ord)]
pub enum Part {
    Reference,
    Class,
    Start,
    Length,
    Execution,
    Instance,
    Order,
    Scope,
    Semantics,
    NonPrivate,
    MakeAvailable,
    MakeVisible,
    Source,
    Rank,
}

use Part::*;

impl Part {
    /// Each with what it is called.
    pub const ALL: [(Part, &str); 14] = [
        (Reference, "reference"),
        (Class, "class"),
        (Start, "start"),
        (Length, "length"),
        (Execution, "execution scope"),
        (Instance, "instance"),
        (Order, "order"),
        (Scope, "scope"),
        (Semantics, "semantics"),
        (NonPrivate, "word `private` or `non-private`"),
        (MakeAvailable, "word `make-available`"),
        (MakeVisible, "word `make-visible`"),
        (Source, "source"),
        (Rank, "rank"),
    ];

    pub fn name(self) -> &'static str {
        let entry = Part::ALL.iter().find(|(part, _)| *part == self);
        entry.map_or("", |(_, name)| name)
    }
}

/// Whether a kind of row has a field.
#[derive(Clone, Copy, PartialEq, Eq)]
enum Fit {
    Needed,
    Allowed,
    Not,
}

/// A row as it is said, with the place of each field.
#[derive(Clone, Debug)]
pub struct Said {
    pub kind: u8,
    pub agent: u8,
    parts: BTreeMap<Part, (u16, Spot)>,
}

impl Said {
    pub fn new(kind: u8, agent: u8) -> Said {
        Said {
            kind,
            agent,
            parts: BTreeMap::new(),
        }
    }

    /// Says a field, which may be said once.
    pub fn put(&mut self, part: Part, value: u16, spot: Spot) -> Result<(), Trouble> {
        if self.parts.contains_key(&part) {
            return Err(spot.trouble(format!("the {} is said twice", part.name())));
        }
        self.parts.insert(part, (value, spot));
        Ok(())
    }

    /// Whether a field has been said.
    pub fn has(&self, part: Part) -> bool {
        self.parts.contains_key(&part)
    }

    /// The row, if its kind has all these fields and lacks none; else the first
    /// that is too many, or what `missing` says of the first that it lacks.
    pub fn row(&self, missing: impl Fn(Part) -> Trouble) -> Result<Row, Trouble> {
        for (part, (_, spot)) in &self.parts {
            if fit(self.kind, *part) == Fit::Not {
                let (kind, part) = (kind_word(self.kind), part.name());
                let article = article(&kind);
                return Err(spot.trouble(format!("{article} {kind} has no {part}")));
            }
        }
        let mut parts = Part::ALL.iter().map(|(part, _)| *part);
        let lacks = parts.find(|part| {
            let is_needed = fit(self.kind, *part) == Fit::Needed || self.needs_scope(*part);
            is_needed && !self.has(*part)
        });
        match lacks {
            Some(part) => Err(missing(part)),
            None => Ok(self.built()),
        }
    }

    /// A plain access that makes something available or visible says to whom.
    fn needs_scope(&self, part: Part) -> bool {
        part == Scope && (self.has(MakeAvailable) || self.has(MakeVisible))
    }

    fn built(&self) -> Row {
        let value = |part| self.parts.get(&part).map_or(0, |(value, _)| *value);
        let small = |part| value(part) as u8;
        let flags = FLAGS.iter().filter(|(part, ..)| value(*part) != 0);
        let always = if is_atomic(self.kind) { NON_PRIVATE } else { 0 };
        Row {
            kind: self.kind,
            agent: self.agent,
            order: small(Order),
            scope: small(Scope),
            classes: small(Semantics),
            flags: flags.fold(always, |flags, (_, _, bit)| flags | bit),
            // The execution scope stands in the class's place, the instance in
            // the start's.
            class: small(Class) | small(Execution),
            length: small(Length),
            start: value(Start) | value(Instance),
            reference: value(Reference),
            source: self
                .parts
                .get(&Source)
                .map_or(INITIAL, |(source, _)| *source),
            rank: value(Rank),
        }
    }
}

/// Whether rows of a kind have a field.
fn fit(kind: u8, part: Part) -> Fit {
    let is_plain = matches!(kind, PLAIN_READ | PLAIN_WRITE);
    let is_access = is_plain || is_atomic(kind);
    let is_barrier = matches!(kind, BARRIER | CONTROL_BARRIER);
    let reads = is_access && !matches!(kind, PLAIN_WRITE | ATOMIC_WRITE);
    let needed = match part {
        Reference | Class | Start | Length => is_access,
        Execution | Instance => kind == CONTROL_BARRIER,
        Order | Scope => is_atomic(kind) || is_barrier,
        Source => reads,
        Rank => matches!(kind, ATOMIC_WRITE | ATOMIC_RMW),
        Semantics | NonPrivate | MakeAvailable | MakeVisible => false,
    };
    let allowed = match part {
        Scope => is_plain,
        Semantics => is_atomic(kind) || is_barrier,
        NonPrivate => is_access,
        MakeAvailable | MakeVisible => is_access || is_barrier,
        _ => false,
    };
    match (needed, allowed) {
        (true, _) => Fit::Needed,
        (false, true) => Fit::Allowed,
        (false, false) => Fit::Not,
    }
}
