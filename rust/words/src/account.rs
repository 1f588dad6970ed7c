//! Why rows are ordered: the rule of location order that holds, the moments
//! that it goes through, and the derivation between them.

use crate::derivation::{at, derived_lines};
use crate::names;
use crate::told::Checked;

/// One reason why a row is ordered before another at a byte.
#[derive(Clone, Debug, PartialEq, Eq)]
pub struct Ordered {
    /// 1 to 5, for L1 to L5.
    pub rule: u8,
    /// What the rule asks besides happens-before, in words.
    pub because: String,
    /// The moments of which each happens before the next.
    pub path: Vec<usize>,
}

impl Checked<'_> {
    /// The lowest rule by which X comes before Y at a byte, and why it does.
    pub fn ordered(&self, x: usize, y: usize, byte: u32) -> Option<Ordered> {
        match self.rule(x, y, byte)? {
            1 => Some(Ordered {
                rule: 1,
                because: "one agent, one reference".to_string(),
                path: vec![at(x), at(y)],
            }),
            2 => Some(Ordered {
                rule: 2,
                because: format!("row {x} only reads, both are non-private"),
                path: vec![at(x), at(y)],
            }),
            3 => self.ordered_by_l3(x, y, byte),
            4 => Some(Ordered {
                rule: 4,
                because: format!("row {x} only reads, and dependencies lead to row {y}"),
                path: vec![at(x), at(y)],
            }),
            _ => self.ordered_by_l5(x, y),
        }
    }

    fn ordered_by_l5(&self, x: usize, y: usize) -> Option<Ordered> {
        let steps = self.state.domain_steps(x, y)?;
        let first = [Some(steps.availability)];
        let stops = first
            .into_iter()
            .chain([steps.domain_operation, steps.visibility]);
        let stops: Vec<usize> = stops.flatten().collect();
        let moments = stops.iter().map(|row| at(*row));
        Some(Ordered {
            rule: 5,
            because: self.l5_words(x, &stops),
            path: [at(x)].into_iter().chain(moments).chain([at(y)]).collect(),
        })
    }

    fn ordered_by_l3(&self, x: usize, y: usize, byte: u32) -> Option<Ordered> {
        let state = self.state;
        let moments = || 0..3 * self.run.rows.len();
        let available = moments().filter(|moment| state.makes_available(*moment, x, y, byte));
        for from in available {
            let ends: Vec<usize> = if self.run.rows[y].reads() {
                moments()
                    .filter(|moment| state.makes_visible(*moment, x, y, byte))
                    .collect()
            } else {
                vec![at(y)]
            };
            if let Some(to) = ends.into_iter().find(|to| state.happens_before(from, *to)) {
                return Some(Ordered {
                    rule: 3,
                    because: self.l3_words(x, y, from, to),
                    path: vec![from, to],
                });
            }
        }
        self.ordered_by_chains(x, y, byte)
    }

    fn l3_words(&self, x: usize, y: usize, from: usize, to: usize) -> String {
        let scope = |moment: usize| names::scope(self.run.rows[moment / 3].scope);
        let object = |row: usize, other: usize| match row == other {
            true => "itself".to_string(),
            false => format!("row {other}"),
        };
        let mut words = format!(
            "row {} makes {} available in {} scope",
            from / 3,
            object(from / 3, x),
            scope(from)
        );
        if self.run.rows[y].reads() {
            words += &format!(
                ", row {} makes it visible to {} in {} scope",
                to / 3,
                object(to / 3, y),
                scope(to)
            );
        }
        words
    }

    /// The steps from moment to moment, a line each.
    pub fn steps(&self, path: &[usize]) -> Vec<String> {
        let arrows = path.windows(2);
        arrows
            .flat_map(|arrow| derived_lines(self.table, &self.run.rows, (arrow[0], arrow[1])))
            .collect()
    }

    /// `row 0 before row 3 by L3: …`, then the steps, indented.
    pub fn order_lines(&self, x: usize, y: usize, byte: u32) -> Vec<String> {
        let Some(ordered) = self.ordered(x, y, byte) else {
            return Vec::new();
        };
        let (rule, because) = (ordered.rule, &ordered.because);
        let mut lines = vec![format!("row {x} before row {y} by L{rule}: {because}")];
        let steps = self.steps(&ordered.path);
        lines.extend(steps.iter().map(|step| format!("  {step}")));
        lines
    }
}
