//! Two unordered rows: which of L1 to L5 comes nearest, and what it lacks.
//! Every statement is read off the table's relations; a rule lacks nothing
//! exactly when it holds.

use crate::derivation::at;
use crate::names;
use crate::told::Checked;
use mend::{is_step, reached};
use second::table::Row;

/// A rule that might have ordered a row before another.
#[derive(Clone, Debug, PartialEq, Eq)]
pub struct Near {
    /// 1 to 5, for L1 to L5.
    pub rule: u8,
    pub before: usize,
    pub after: usize,
    pub lacks: Vec<String>,
}

impl Checked<'_> {
    /// The rule that lacks least, of those that speak of such rows at all and
    /// go forward. A reader comes after its source, so nothing else is near then.
    pub fn nearest(&self, first: usize, second: usize, byte: u32) -> Near {
        let nears = [(first, second), (second, first)]
            .into_iter()
            .flat_map(|(before, after)| {
                [3, 2, 1, 5, 4].into_iter().filter_map(move |rule| {
                    let is_apt = self.speaks_of(rule, before, after);
                    is_apt.then(|| self.near(rule, before, after, byte))
                })
            });
        nears
            .min_by_key(|near| {
                let is_against = self.state.read_from(near.before) == Some(near.after);
                let is_backward = self.is_backward(near.before, near.after);
                (is_against, is_backward, near.lacks.len())
            })
            .expect("of conflicting rows one writes, and L3 or L5 speaks of it")
    }

    /// Whether a row comes after another in the run's causal order, by program
    /// order, what atomics read, control barriers and dependencies, and not
    /// before it.
    pub fn is_backward(&self, before: usize, after: usize) -> bool {
        let leads = |from: usize, to: usize| reached(self.run, from, is_step)[to];
        leads(after, before) && !leads(before, after)
    }

    /// Whether a rule could order such rows: L1 one agent's, L2 a mere reader
    /// before another row, L3 a writer among shaders, L4 a mere reader and L5
    /// a writer where hosts or queues have a part in it.
    fn speaks_of(&self, rule: u8, before: usize, after: usize) -> bool {
        let (x, y) = (self.run.rows[before], self.run.rows[after]);
        match rule {
            1 => x.agent == y.agent,
            2 => x.reads() && !x.writes(),
            3 => x.writes() && !self.has_host(before, after),
            4 => x.reads() && !x.writes() && self.run.has_hosts,
            _ => {
                let has_operations = || self.run.rows.iter().any(|row| row.is_queue_operation());
                x.writes() && (self.has_host(before, after) || has_operations())
            }
        }
    }

    fn near(&self, rule: u8, before: usize, after: usize, byte: u32) -> Near {
        Near {
            rule,
            before,
            after,
            lacks: self.lacks(rule, before, after, byte),
        }
    }

    /// Why two atomics aren't mutually-ordered, in words.
    pub fn not_mutual(&self, x: usize, y: usize) -> Option<String> {
        let (first, second) = (self.run.rows[x], self.run.rows[y]);
        let are_atomic = first.is_atomic() && second.is_atomic();
        if !are_atomic || self.state.mutually_ordered(x, y) {
            return None;
        }
        let place = |row: Row| (row.start, row.length, row.reference);
        if place(first) != place(second) {
            let why = "their bytes or references differ";
            return Some(format!("Atomics, but not mutually-ordered (M3): {why}."));
        }
        let (agent, other) = (first.agent, second.agent);
        let narrow: Vec<String> = [x, y]
            .into_iter()
            .map(|row| (row, self.run.rows[row].scope))
            .filter(|(_, scope)| !self.state.share_scope(agent, other, *scope))
            .map(|(row, scope)| format!("row {row} has {} scope", names::scope(scope)))
            .collect();
        Some(format!(
            "Atomics of one place, but not mutually-ordered (M3): {}, which agents {agent} and {other} don't share.",
            names::listed(&narrow)
        ))
    }

    /// What a rule lacks to order X before Y at a byte of both.
    pub fn lacks(&self, rule: u8, x: usize, y: usize, byte: u32) -> Vec<String> {
        match rule {
            1 => self.l1_lacks(x, y),
            2 => self.l2_lacks(x, y),
            3 => self.l3_lacks(x, y, byte),
            4 => self.l4_lacks(x, y),
            _ => self.l5_lacks(x, y),
        }
    }

    fn l1_lacks(&self, x: usize, y: usize) -> Vec<String> {
        let (first, second) = (self.run.rows[x].agent, self.run.rows[y].agent);
        let mut lacks = Vec::new();
        if first != second {
            lacks.push(format!(
                "row {x} is agent {first}'s, row {y} agent {second}'s"
            ));
        }
        lacks.extend(self.other_reference(x, y));
        lacks.extend(self.not_before(x, y, at(x), &[at(y)]));
        lacks
    }

    fn l2_lacks(&self, x: usize, y: usize) -> Vec<String> {
        let mut lacks = Vec::new();
        if !self.run.rows[x].reads() {
            lacks.push(format!("row {x} doesn't read"));
        } else if self.run.rows[x].writes() {
            lacks.push(format!("row {x} writes"));
        }
        lacks.extend(self.private(x));
        lacks.extend(self.private(y));
        lacks.extend(self.not_before(x, y, at(x), &[at(y)]));
        lacks
    }

    fn l3_lacks(&self, x: usize, y: usize, byte: u32) -> Vec<String> {
        let state = self.state;
        let moments = 0..3 * self.run.rows.len();
        let mut lacks = Vec::new();
        // What follows speaks of single elements, and a chain may do as well.
        if state.rules_at(x, y, byte)[2] {
            return lacks;
        }
        if !self.run.rows[x].writes() {
            lacks.push(format!("row {x} doesn't write"));
        }
        lacks.extend(self.private(x));
        lacks.extend(self.private(y));
        lacks.extend(self.other_reference(x, y));
        let available: Vec<usize> = moments
            .clone()
            .filter(|moment| state.makes_available(*moment, x, y, byte))
            .collect();
        let visible: Vec<usize> = moments
            .filter(|moment| state.makes_visible(*moment, x, y, byte))
            .collect();
        if available.is_empty() {
            lacks.push(self.never_available(x, y, byte));
        }
        if self.run.rows[y].reads() && visible.is_empty() {
            lacks.push(self.never_visible(x, y, byte));
        }
        lacks.extend(self.chain_lacks(x, y, &available, &visible));
        lacks
    }

    /// The chain that L3 lacks: from an availability moment to a visibility
    /// moment, or from and to the rows themselves where there is none.
    fn chain_lacks(
        &self,
        x: usize,
        y: usize,
        available: &[usize],
        visible: &[usize],
    ) -> Option<String> {
        let own = |moments: &[usize], row: usize| {
            if moments.is_empty() {
                vec![at(row)]
            } else {
                moments.to_vec()
            }
        };
        let ends = if self.run.rows[y].reads() {
            own(visible, y)
        } else {
            vec![at(y)]
        };
        let lacks = own(available, x)
            .into_iter()
            .map(|start| self.not_before(x, y, start, &ends));
        // One start that leads to an end is enough.
        lacks.min_by_key(Option::is_some).flatten()
    }

    fn private(&self, row: usize) -> Option<String> {
        let is_private = !self.run.rows[row].is_non_private();
        is_private.then(|| format!("row {row} is private"))
    }

    fn other_reference(&self, x: usize, y: usize) -> Option<String> {
        let (first, second) = (self.run.rows[x].reference, self.run.rows[y].reference);
        (first != second)
            .then(|| format!("row {x} goes by reference {first}, row {y} by reference {second}"))
    }

    fn never_available(&self, x: usize, y: usize, byte: u32) -> String {
        let (agent, other) = (self.run.rows[x].agent, self.run.rows[y].agent);
        let narrow = self.moment_that(|moment| self.state.makes_available(moment, x, x, byte));
        let narrow = self.narrow_words(narrow, "available", x, y);
        format!("byte {byte} of agent {agent}'s write in row {x} is never made available to agent {other}{narrow}")
    }

    fn never_visible(&self, x: usize, y: usize, byte: u32) -> String {
        let (agent, other) = (self.run.rows[x].agent, self.run.rows[y].agent);
        let narrow = self.moment_that(|moment| self.state.makes_visible(moment, y, y, byte));
        let narrow = self.narrow_words(narrow, "visible", x, y);
        format!("byte {byte} of agent {agent}'s write in row {x} is never made visible to agent {other} before row {y}{narrow}")
    }

    fn moment_that(&self, test: impl Fn(usize) -> bool) -> Option<usize> {
        (0..3 * self.run.rows.len()).find(|moment| test(*moment))
    }

    /// A moment that would do but for its scope, which every agent shares
    /// with itself.
    fn narrow_words(&self, moment: Option<usize>, what: &str, x: usize, y: usize) -> String {
        let rows = &self.run.rows;
        let Some(row) = moment.map(|moment| moment / 3) else {
            return String::new();
        };
        format!(
            ": row {row} makes {what} in {} scope, which agents {} and {} don't share",
            names::scope(rows[row].scope),
            rows[x].agent,
            rows[y].agent
        )
    }
}
