//! A table's relations by the second implementation, and what they say of
//! two rows.

use crate::judge::of_second;
use crate::notes::Notes;
use crate::run::Run;
use second::table::HOST;
use second::{Chains, State, AT, CYCLE_NUMBERS, WORK_WORDS};
use stramashly::OwnedCheckAnswer;

/// A race: two rows and a byte at which nothing orders them.
#[derive(Clone, Copy, Debug, PartialEq, Eq, PartialOrd, Ord)]
pub struct Goal {
    pub first: usize,
    pub second: usize,
    pub byte: u32,
}

impl Goal {
    /// A race as answers have it.
    pub fn new(first: u16, second: u16, byte: u16) -> Goal {
        Goal {
            first: first.into(),
            second: second.into(),
            byte: byte.into(),
        }
    }

    /// The race that a check answers, if it does.
    pub fn of(answer: &OwnedCheckAnswer) -> Option<Goal> {
        match *answer {
            OwnedCheckAnswer::Race {
                first,
                second,
                byte,
            } => Some(Goal::new(first, second, byte)),
            _ => None,
        }
    }
}

/// A checked table: its bytes, its relations and its rows.
#[derive(Clone, Copy)]
pub struct Facts<'a> {
    pub table: &'a [u8],
    pub state: &'a State,
    pub run: &'a Run,
}

/// A table that the second implementation has checked.
pub struct Relations<'a> {
    table: &'a [u8],
    state: State,
    run: Run,
    /// What it answered.
    pub answer: OwnedCheckAnswer,
}

impl<'a> Relations<'a> {
    /// Checks a table of which this is noted.
    pub fn of(chains: Chains, table: &'a [u8], notes: &Notes) -> Relations<'a> {
        let mut state = State::new();
        let answer = of_second(&state.check_with(chains, table, WORK_WORDS, CYCLE_NUMBERS));
        let run = Run::of(table).noted(notes);
        Relations {
            table,
            state,
            run,
            answer,
        }
    }

    /// What the relations say.
    pub fn facts(&self) -> Facts<'_> {
        Facts {
            table: self.table,
            state: &self.state,
            run: &self.run,
        }
    }
}

impl Facts<'_> {
    /// The number of the lowest rule by which X comes before Y at a byte.
    pub fn rule(&self, x: usize, y: usize, byte: u32) -> Option<u8> {
        let [l1, l2, l3] = self.state.rules_at(x, y, byte);
        let [l4, l5] = self.state.system_rules(x, y);
        let rules = [l1, l2, l3, l4, l5];
        let place = rules.iter().position(|holds| *holds)?;
        Some(place as u8 + 1)
    }

    /// Whether one of two rows is a host's.
    pub fn has_host(&self, first: usize, second: usize) -> bool {
        let is_host = |row: usize| self.run.sort(self.run.rows[row].agent) == HOST;
        is_host(first) || is_host(second)
    }

    /// The racing pairs, each with its lowest unordered byte.
    pub fn races(&self) -> Vec<Goal> {
        let rows = self.run.rows.len();
        let pairs = (0..rows).flat_map(|x| (x + 1..rows).map(move |y| (x, y)));
        let goals = pairs.filter_map(|(first, second)| {
            let mut bytes = self.shared_bytes(first, second).into_iter();
            let byte = bytes.find(|byte| self.state.races_at(first, second, *byte))?;
            Some(Goal {
                first,
                second,
                byte,
            })
        });
        goals.collect()
    }

    /// The bytes that two rows share, lowest first.
    pub fn shared_bytes(&self, x: usize, y: usize) -> Vec<u32> {
        let (x, y) = (self.run.rows[x], self.run.rows[y]);
        (x.first_byte()..x.end_byte())
            .filter(|byte| y.has_byte(*byte))
            .collect()
    }
}

/// The number of a row's own moment.
pub fn at(row: usize) -> usize {
    3 * row + AT
}
