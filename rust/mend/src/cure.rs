//! Changes that end a race, what comes of them, and which come first.

use crate::change::{Change, Reason};
use crate::dependency::Dependency;
use crate::edit::{Edit, Field};
use crate::facts::Goal;
use crate::insertion::Insertion;
use crate::steps::Step;
use stramashly::{CheckAnswer, OwnedCheckAnswer};

/// Changes that end the race: of rows that are there, or new rows and what the
/// racing rows need besides.
#[derive(Clone, Debug)]
pub struct Cure {
    pub changes: Vec<Change>,
    /// The changes as edits, one for each field of a row.
    pub edits: Vec<Edit>,
    /// The new rows, put in one after the other when the edits are made.
    pub insertions: Vec<Insertion>,
    /// New dependencies, of the rows as they are numbered then.
    pub dependencies: Vec<Dependency>,
    /// What orders the rows then; of a large table it isn't looked for.
    pub order: Option<Order>,
    /// What a check answers then.
    pub answer: OwnedCheckAnswer,
    pub outcome: Outcome,
    /// Whether the table has room for the new rows. Where it hasn't, they were
    /// tried with the racing agents' rows alone, and their places are those.
    pub has_room: bool,
}

/// Why racing rows are ordered.
#[derive(Clone, Copy, Debug, PartialEq, Eq)]
pub enum Order {
    /// They are mutually-ordered atomics.
    Mutual,
    /// L1 to L5 puts this row first, by the number that it has in the table as
    /// it is.
    Rule { rule: u8, first: usize },
}

/// What comes of a change, the better first.
#[derive(Clone, Copy, Debug, PartialEq, Eq, PartialOrd, Ord)]
pub enum Outcome {
    RaceFree,
    /// So many racing pairs are left, the shown one is not among them.
    OtherRace {
        left: usize,
    },
    /// The shown rows race at another byte.
    OtherByte,
    /// The run as recorded can't happen then.
    Impossible,
}

impl Outcome {
    /// What an answer means for a race; none if the table is refused, or races
    /// where it didn't.
    pub fn of(answer: &CheckAnswer, goal: Goal) -> Option<Outcome> {
        match answer {
            CheckAnswer::RaceFree => Some(Outcome::RaceFree),
            CheckAnswer::Race {
                first,
                second,
                byte,
            } => {
                let pair = (usize::from(*first), usize::from(*second));
                let shown = (goal.first, goal.second);
                if pair == shown {
                    let is_later = u32::from(*byte) > goal.byte;
                    return is_later.then_some(Outcome::OtherByte);
                }
                // Pairs that come before the first racing one don't race.
                (pair > shown).then_some(Outcome::OtherRace { left: 0 })
            }
            CheckAnswer::Cycle { .. } | CheckAnswer::Overwritten { .. } => {
                Some(Outcome::Impossible)
            }
            _ => None,
        }
    }

    /// Whether the shown race is gone, and the run possible.
    pub fn is_good(self) -> bool {
        self < Outcome::OtherByte
    }
}

impl Cure {
    /// All that is to be done, in order.
    pub fn steps(&self) -> Vec<Step> {
        let edits = self.edits.iter().map(|edit| Step::Edit(*edit));
        let insertions = self.insertions.iter();
        let dependencies = self.dependencies.iter();
        edits
            .chain(insertions.map(|insertion| Step::Insert(*insertion)))
            .chain(dependencies.map(|dependency| Step::Depend(*dependency)))
            .collect()
    }

    /// Whether something is put in, rather than changed.
    pub fn is_new(&self) -> bool {
        !self.insertions.is_empty() || !self.dependencies.is_empty()
    }

    fn reasons(&self) -> impl Iterator<Item = &Reason> {
        self.changes.iter().flat_map(|change| &change.reasons)
    }

    /// Whether the race ends because rows become atomics, which orders nothing.
    pub fn is_silent(&self) -> bool {
        self.reasons()
            .any(|reason| matches!(reason, Reason::NotAtomic { .. }))
    }

    /// Whether the run would have to be another one.
    fn is_other_run(&self) -> bool {
        self.reasons()
            .any(|reason| matches!(reason, Reason::OtherSource { .. }))
    }

    /// Whether instructions that are there get more of what they have, and
    /// nothing else is wanted.
    pub fn is_stronger(&self) -> bool {
        let is_other = |reason: &Reason| {
            matches!(
                reason,
                Reason::OtherReference { .. }
                    | Reason::OtherSource { .. }
                    | Reason::EndsSequence { .. }
                    | Reason::NotAtomic { .. }
            )
        };
        !self.is_new() && !self.reasons().any(is_other)
    }

    /// Which of two comes first: what leaves least trouble, then changes of
    /// the program before those of the run, then the smaller. What orders
    /// nothing comes after what does, unless that is how such data is shared.
    pub fn rank(&self, is_silence_apt: bool) -> impl Ord {
        let part = match (self.outcome.is_good(), self.is_silent()) {
            (true, true) if is_silence_apt => 0,
            (true, false) => 1,
            (true, true) => 2,
            (false, _) => 3,
        };
        let (outcome, left) = match self.outcome {
            Outcome::RaceFree => (0, 0),
            Outcome::OtherRace { left } => (1, left),
            Outcome::OtherByte => (2, 0),
            Outcome::Impossible => (3, 0),
        };
        let size = self.edits.len() + self.insertions.len() + self.dependencies.len();
        let changes = self.changes.len();
        (
            part,
            outcome,
            self.is_other_run(),
            left,
            !self.is_stronger(),
            changes,
            size,
        )
    }
}

/// The cures that do no more than another one and something besides are left
/// out, unless they leave less trouble; new rows are something else.
pub fn without_needless(cures: &[Cure]) -> Vec<Cure> {
    let is_needless = |cure: &Cure| {
        let others = cures.iter().filter(|other| !other.is_new());
        let mut others = others.filter(|other| other.edits != cure.edits);
        let does_less =
            |less: &Cure| less.outcome <= cure.outcome && contains(&cure.edits, &less.edits);
        !cure.is_new() && others.any(does_less)
    };
    let mut needed: Vec<Cure> = Vec::new();
    for cure in cures.iter().filter(|cure| !is_needless(cure)) {
        let is_known = needed.iter().any(|known| known.steps() == cure.steps());
        if !is_known {
            needed.push(cure.clone());
        }
    }
    needed
}

/// Whether edits do all that others do, or more.
fn contains(edits: &[Edit], others: &[Edit]) -> bool {
    let does = |edit: &Edit, other: &Edit| {
        (edit.row, edit.field) == (other.row, other.field)
            && match edit.field {
                Field::Flags | Field::Classes | Field::Order => {
                    edit.value & other.value == other.value
                }
                Field::Scope => edit.value >= other.value,
                _ => edit.value == other.value,
            }
    };
    others
        .iter()
        .all(|other| edits.iter().any(|edit| does(edit, other)))
}
