//! Two moments of which the first doesn't happen before the second: where
//! the chain between them is missing.

use crate::derivation::{at, meeting, moment_words};
use crate::describe::source_words;
use crate::names;
use crate::told::Checked;
use second::table::Row;

impl Checked<'_> {
    /// Says why a moment happens before none of some others, if it doesn't.
    pub fn not_before(&self, x: usize, y: usize, from: usize, ends: &[usize]) -> Option<String> {
        if ends.iter().any(|to| self.state.happens_before(from, *to)) {
            return None;
        }
        let rows = &self.run.rows;
        let last = ends.iter().max().copied().unwrap_or(at(y));
        let own = |agent: u8| (0..rows.len()).filter(move |row| rows[*row].agent == agent);
        let gap = Gap {
            none: format!(
                "nothing leads from {} to {}",
                moment_words(rows, from),
                self.end_words(y, ends)
            ),
            from,
            last,
            releases: own(rows[x].agent)
                .filter(|row| rows[*row].is_release() && at(*row) >= from)
                .collect(),
            acquires: own(rows[y].agent)
                .filter(|row| rows[*row].is_acquire() && at(*row) <= last)
                .collect(),
        };
        Some(self.gap_words(x, y, &gap))
    }

    fn end_words(&self, y: usize, ends: &[usize]) -> String {
        match ends {
            [only] => moment_words(&self.run.rows, *only),
            _ => format!("a visibility moment for row {y}"),
        }
    }

    fn gap_words(&self, x: usize, y: usize, gap: &Gap) -> String {
        let (agent, other) = (self.run.rows[x].agent, self.run.rows[y].agent);
        let none = &gap.none;
        if agent == other {
            return format!("{none}, which comes no later");
        }
        let unfit = self.meeting_lacks((agent, other), gap).unwrap_or_default();
        if gap.releases.is_empty() {
            return format!("{none}: agent {agent} releases nothing from there on{unfit}");
        }
        if gap.acquires.is_empty() {
            return format!("{none}: agent {other} acquires nothing up to there{unfit}");
        }
        let met = gap.releases.iter().find_map(|release| {
            let mut acquires = gap.acquires.iter();
            let met = acquires.find(|acquire| self.state.synchronizes_with(*release, **acquire));
            Some((*release, *met?))
        });
        match met {
            Some((release, acquire)) => self.not_carried_words(none, [x, y, release, acquire]),
            None => format!(
                "{none}: of agent {agent}'s releases ({}) none synchronizes with an acquire of agent {other} ({}){}",
                names::rows(&gap.releases),
                names::rows(&gap.acquires),
                match unfit.is_empty() {
                    true => self.unmet_words(gap),
                    false => unfit,
                }
            ),
        }
    }

    /// What a control barrier that both agents meet in lacks, if there is one
    /// where a chain could go through it.
    fn meeting_lacks(&self, (agent, other): (u8, u8), gap: &Gap) -> Option<String> {
        let rows = &self.run.rows;
        // The rows whose own moments are no earlier, or no later.
        let (first, last) = ((gap.from + 1) / 3, gap.last.div_ceil(3).checked_sub(1)?);
        let (ours, theirs) = meeting(rows, (agent, first), (other, last))?;
        let releases = gap.releases.iter().rfind(|row| {
            let is_barrier = rows[**row].is_barrier();
            is_barrier && **row <= ours
        });
        let acquires = gap.acquires.iter().find(|row| {
            let is_barrier = rows[**row].is_barrier();
            is_barrier && **row >= theirs
        });
        let mut lacks = Vec::new();
        if releases.is_none() {
            lacks.push(format!("row {ours} doesn't release"));
        }
        if acquires.is_none() {
            lacks.push(format!("row {theirs} doesn't acquire"));
        }
        for row in releases.into_iter().chain(acquires) {
            let scope = rows[*row].scope;
            if !self.state.share_scope(agent, other, scope) {
                let scope = names::scope(scope);
                lacks.push(format!("row {row} has {scope} memory scope only"));
            }
        }
        let instance = rows[ours].instance();
        let lacks = names::listed(&lacks);
        (!lacks.is_empty()).then(|| {
            format!("; rows {ours} and {theirs} meet in control barrier {instance}, but {lacks}")
        })
    }

    /// Why the only release doesn't synchronize with the only acquire.
    fn unmet_words(&self, gap: &Gap) -> String {
        let ([release], [acquire]) = (&gap.releases[..], &gap.acquires[..]) else {
            return String::new();
        };
        let rows = &self.run.rows;
        let (first, second) = (rows[*release], rows[*acquire]);
        let narrow = [*release, *acquire].into_iter().find(|row| {
            let scope = rows[*row].scope;
            !self.state.share_scope(first.agent, second.agent, scope)
        });
        if let Some(row) = narrow {
            return format!(
                "; row {row} has {} scope only",
                names::scope(rows[row].scope)
            );
        }
        if !first.is_atomic() || !second.is_atomic() {
            let meet = match first.is_barrier() && second.is_barrier() {
                true => ", and no control barrier is met between them",
                false => "",
            };
            return format!("; no atomic that was written after the one and read before the other joins them{meet}");
        }
        let place = |row: Row| (row.start, row.length, row.reference);
        if place(first) != place(second) {
            return "; they are atomics of different places".to_string();
        }
        format!(
            "; row {acquire} read {}, which isn't in row {release}'s release sequence",
            source_words(second)
        )
    }

    fn not_carried_words(&self, none: &str, [x, y, release, acquire]: [usize; 4]) -> String {
        let rows = &self.run.rows;
        let classes = |row: usize| names::classes(rows[row].classes);
        let class = |row: usize| names::class(rows[row].class);
        format!(
            "{none}: row {release} synchronizes with row {acquire}, but not for these classes: row {release} names {}, row {acquire} names {}, row {x} is in {}, row {y} in {}",
            classes(release),
            classes(acquire),
            class(x),
            class(y),
        )
    }
}

/// Where a chain is missing: from which moment to which, and the rows that
/// could have begun and ended it.
struct Gap {
    none: String,
    from: usize,
    last: usize,
    releases: Vec<usize>,
    acquires: Vec<usize>,
}
