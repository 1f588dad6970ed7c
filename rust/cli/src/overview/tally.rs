//! Counts of runs: in all, by folder, and by what was found in them.

use super::known::Earlier;
use super::{Run, Verdict};
use crate::found::{Cause, Fingerprint};
use crate::Status;
use std::collections::BTreeMap;
use std::path::Path;

/// The worst runs that are named.
const WORST: usize = 10;

/// How many runs had which answer, and the pairs of those that could have
/// happened.
#[derive(Clone, Debug, Default)]
pub struct Counts {
    pub verdicts: BTreeMap<Verdict, u64>,
    pub conflicting: u64,
    pub racing: u64,
}

impl Counts {
    fn add(&mut self, run: &Run) {
        *self.verdicts.entry(run.verdict).or_default() += 1;
        if let Some((conflicting, racing)) = run.pairs {
            self.conflicting += conflicting;
            self.racing += racing;
        }
    }

    pub fn of(&self, verdict: Verdict) -> u64 {
        self.verdicts.get(&verdict).copied().unwrap_or(0)
    }

    pub fn runs(&self) -> u64 {
        self.verdicts.values().sum()
    }

    /// The racing pairs' part of the conflicting ones, if there are any.
    pub fn share(&self) -> Option<f64> {
        let has_pairs = self.conflicting > 0;
        has_pairs.then(|| self.racing as f64 / self.conflicting as f64)
    }

    /// `3 runs: 2 race-free, 1 race`.
    pub fn text(&self) -> String {
        let runs = self.runs();
        let parts = self.verdicts.iter();
        let parts = parts.map(|(verdict, count)| format!("{count} {}", verdict.name()));
        let parts: Vec<String> = parts.collect();
        let noun = if runs == 1 { "run" } else { "runs" };
        format!("{runs} {noun}: {}", parts.join(", "))
    }
}

/// A race, or another finding, in all the runs that have it.
#[derive(Clone, Debug)]
pub struct Group {
    pub verdict: Verdict,
    pub what: String,
    pub cause: Option<Cause>,
    pub status: Status,
    pub runs: u64,
    /// The first run that has it.
    pub example: String,
}

/// A run that races.
#[derive(Clone, Debug)]
pub struct Worst {
    pub name: String,
    pub answer: String,
    pub conflicting: u64,
    pub racing: u64,
}

#[derive(Default)]
pub struct Tally {
    pub all: Counts,
    pub folders: BTreeMap<String, Counts>,
    pub groups: BTreeMap<Fingerprint, Group>,
    pub causes: BTreeMap<Cause, u64>,
    pub worst: Vec<Worst>,
}

impl Tally {
    pub fn add(&mut self, run: Run) {
        self.all.add(&run);
        let name = run.name.to_string_lossy();
        let folder = Path::new(&*name).parent().map(Path::to_string_lossy);
        let folder = folder.filter(|folder| !folder.is_empty());
        let folder = folder.as_deref().unwrap_or(".");
        // Most runs are of a folder that is known.
        match self.folders.get_mut(folder) {
            Some(counts) => counts.add(&run),
            None => self
                .folders
                .entry(folder.to_string())
                .or_default()
                .add(&run),
        }
        if let Some((conflicting, racing)) = run.pairs.filter(|(_, racing)| *racing > 0) {
            self.note_worst(Worst {
                name: name.to_string(),
                answer: run.answer.clone(),
                conflicting,
                racing,
            });
        }
        let Some(found) = run.found else {
            return;
        };
        if let Some(cause) = found.cause {
            *self.causes.entry(cause).or_default() += 1;
        }
        let group = self.groups.entry(found.fingerprint);
        let group = group.or_insert_with(|| Group {
            verdict: run.verdict,
            what: found.what,
            cause: found.cause,
            status: run.status,
            runs: 0,
            example: name.to_string(),
        });
        group.runs += 1;
    }

    /// Keeps the runs with the most racing pairs; of as many, the first.
    fn note_worst(&mut self, run: Worst) {
        let at = self
            .worst
            .partition_point(|other| other.racing >= run.racing);
        if at < WORST {
            self.worst.insert(at, run);
            self.worst.truncate(WORST);
        }
    }

    /// Groups of findings, the one with the most runs first.
    pub fn groups(&self) -> Vec<(Fingerprint, &Group)> {
        let groups = self.groups.iter();
        let mut groups: Vec<_> = groups.map(|(print, group)| (*print, group)).collect();
        groups.sort_by_key(|(print, group)| (std::cmp::Reverse(group.runs), *print));
        groups
    }

    /// Causes, the commonest first.
    pub fn causes(&self) -> Vec<(Cause, u64)> {
        let causes = self.causes.iter();
        let mut causes: Vec<_> = causes.map(|(cause, count)| (*cause, *count)).collect();
        causes.sort_by_key(|(cause, count)| (std::cmp::Reverse(*count), *cause));
        causes
    }

    /// The highest status of a run whose finding isn't known.
    pub fn status(&self, earlier: &Earlier) -> Status {
        let groups = self.groups.iter();
        let new = groups.filter(|(print, _)| !earlier.is_known(**print));
        let highest = new.map(|(_, group)| group.status).max();
        let unread = self.all.of(Verdict::Unread) > 0;
        let unread = if unread {
            Status::Trouble
        } else {
            Status::Fine
        };
        highest.unwrap_or(Status::Fine).max(unread)
    }
}
