//! The rows of a large run that an answer is about: those that it names, and
//! what synchronizes near them.

use super::ghost::Ghosts;
use mend::{Goal, Stop};
use std::collections::BTreeSet;
use stramashly::{Checker, Derivation, DeriveAnswer};
use words::{meeting, step_parts, Checked, Shown};

/// A run of so many rows is drawn whole.
pub const WHOLE: usize = 32;
/// So many rows of a sort are taken in.
const NEAR: usize = 2;

/// The rows to draw; with what they lack.
pub fn rows(checked: Checked, shown: &Shown, ghosts: &Ghosts, is_all: bool) -> Vec<usize> {
    let count = checked.run.rows.len();
    if is_all || count <= WHOLE {
        return (0..count).collect();
    }
    let mut matter = Matter {
        checked,
        rows: shown.rows().into_iter().collect(),
    };
    match shown {
        Shown::Nothing | Shown::Refused { .. } => return (0..count).collect(),
        Shown::Race(goal) => matter.race(*goal),
        Shown::Overwritten {
            source,
            writer,
            reader,
            ..
        } => {
            matter.order(*source, *writer);
            matter.order(*writer, *reader);
        }
        Shown::Cycle { rows, .. } => {
            for (place, row) in rows.iter().enumerate() {
                matter.order(*row, rows[(place + 1) % rows.len()]);
            }
        }
    }
    matter.lacking(ghosts);
    matter.sources();
    matter.rows.into_iter().collect()
}

struct Matter<'a> {
    checked: Checked<'a>,
    rows: BTreeSet<usize>,
}

impl Matter<'_> {
    /// The chain by which a row is ordered before another, if it is.
    fn order(&mut self, before: usize, after: usize) {
        let mut bytes = self.checked.shared_bytes(before, after).into_iter();
        let ordered = bytes.find_map(|byte| self.checked.ordered(before, after, byte));
        let Some(ordered) = ordered else {
            return;
        };
        self.rows
            .extend(ordered.path.iter().map(|moment| moment / 3));
        let mut checker = Checker::new();
        for arrow in ordered.path.windows(2) {
            let (from, to) = (arrow[0] as u16, arrow[1] as u16);
            let answer = checker.derive(self.checked.table, from, to);
            if let DeriveAnswer::Derivation(Derivation::Chain { steps, .. }) = answer {
                let reached = steps.iter().map(|step| step_parts(*step).1 / 3);
                self.rows.extend(reached);
            }
        }
    }

    /// What might have ordered a racing pair, the way that comes nearest.
    fn race(&mut self, goal: Goal) {
        let near = self.checked.nearest(goal.first, goal.second, goal.byte);
        self.between(near.before, near.after);
    }

    /// A row that a release or an acquire synchronizes with, rather one of
    /// the racing agents'.
    fn partner(&self, agents: [u8; 2], test: impl Fn(usize) -> bool) -> Option<usize> {
        let rows = &self.checked.run.rows;
        let partners = || (0..rows.len()).filter(|row| test(*row));
        let near = partners().find(|row| agents.contains(&rows[*row].agent));
        near.or_else(|| partners().next())
    }

    fn between(&mut self, before: usize, after: usize) {
        let rows = &self.checked.run.rows;
        if rows[before].writes() && self.checked.run.has_hosts {
            let way = self.checked.way(before, after);
            self.rows.extend(way.iter().filter_map(|stop| match stop {
                Stop::Row(row) => Some(*row),
                Stop::Missing(_) => None,
            }));
        }
        let (agent, other) = (rows[before].agent, rows[after].agent);
        let releases = (before + 1..rows.len())
            .filter(|row| rows[*row].agent == agent && rows[*row].is_release())
            .take(NEAR);
        let acquires = (0..after)
            .rev()
            .filter(|row| rows[*row].agent == other && rows[*row].is_acquire())
            .take(NEAR);
        let (releases, acquires): (Vec<usize>, Vec<usize>) =
            (releases.collect(), acquires.collect());
        let state = self.checked.state;
        for release in &releases {
            let met = |row| state.synchronizes_with(*release, row);
            self.rows.extend(self.partner([agent, other], met));
            // The flag that a fence goes with.
            let flag = (*release..rows.len())
                .find(|row| rows[*row].agent == agent && rows[*row].is_atomic_writer());
            self.rows.extend(flag);
        }
        for acquire in &acquires {
            let met = |row| state.synchronizes_with(row, *acquire);
            self.rows.extend(self.partner([agent, other], met));
            let flag = (0..=*acquire)
                .rfind(|row| rows[*row].agent == other && rows[*row].is_atomic_reader());
            self.rows.extend(flag);
        }
        self.rows.extend(releases);
        self.rows.extend(acquires);
        if agent != other {
            let met = meeting(rows, (agent, before), (other, after));
            self.rows.extend(met.map(|(ours, _)| ours));
            self.rows.extend(met.map(|(_, theirs)| theirs));
        }
    }

    /// Rows that lack something, a few, rather of agents that are drawn.
    fn lacking(&mut self, ghosts: &Ghosts) {
        let rows = &self.checked.run.rows;
        let agents: BTreeSet<u8> = self.rows.iter().map(|row| rows[*row].agent).collect();
        let (near, far): (Vec<usize>, Vec<usize>) = ghosts
            .rows
            .keys()
            .partition(|row| agents.contains(&rows[**row].agent));
        let has_near = near.iter().any(|row| self.rows.contains(row));
        let more = if has_near { 0 } else { 2 * NEAR };
        self.rows.extend(near.into_iter().chain(far).take(more));
    }

    /// What the rows read.
    fn sources(&mut self) {
        let state = self.checked.state;
        let sources: Vec<usize> = self
            .rows
            .iter()
            .filter_map(|row| state.read_from(*row))
            .collect();
        self.rows.extend(sources);
    }
}
