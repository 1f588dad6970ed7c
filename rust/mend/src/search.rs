//! The search for what would end a race. First each instruction is given all
//! that it may have, alone and with others, and what isn't needed is taken away
//! again; then other accesses, other variables and other runs are tried, then
//! new rows. Every answer is the proved checker's; questions on the way are
//! asked of the rows that the race depends on.

use crate::catalogue::catalogue;
use crate::change::Change;
use crate::cure::{without_needless, Cure, Order, Outcome};
use crate::edit::{merged, Edit};
use crate::facts::{Facts, Goal, Relations};
use crate::instruction::{instructions, Instruction};
use crate::judge::Judge;
use crate::notes::Notes;
use crate::reduction::Reduction;
use crate::remedy::{is_seqlock, remedies, Remedy};
use crate::run::Run;
use crate::steps::stepped;
use crate::strength::Strength;
use second::table::{ACQUIRE, BARRIER, DEVICE, MAKE_AVAILABLE, MAKE_VISIBLE, NON_PRIVATE, RELEASE};
use second::MAX_ROWS;
use stramashly::{FillAnswer, OwnedCheckAnswer};

/// What the search found.
#[derive(Clone, Debug, Default)]
pub struct Search {
    pub cures: Vec<Cure>,
    /// How many instructions and other changes were tried.
    pub tried: usize,
    /// Whether it ended before all was tried.
    pub is_cut: bool,
    /// Whether the table has no room for new rows that were looked for.
    pub is_full: bool,
}

/// So many cures with new rows are shown at most.
const ENOUGH_REMEDIES: usize = 3;
/// So many other changes are tried together with stronger instructions.
const MOST_BASES: usize = 12;
/// What orders the rows is said of a table of so many rows that matter.
const ORDER_ROWS: usize = 40;

/// Instructions and how strong they are to be.
type Chosen = Vec<(usize, Strength)>;

/// Tries changes until the budget is used up.
struct Searcher<'a> {
    table: &'a [u8],
    run: &'a Run,
    goal: Goal,
    checker: &'a mut dyn Judge,
    /// What the race depends on, whatever is edited; and while only orders,
    /// scopes, classes and flags are.
    reduction: Reduction,
    tight: Reduction,
    /// The instructions on ways between the racing rows, the nearest first.
    instructions: Vec<Instruction>,
    /// Questions that may still be asked.
    budget: usize,
}

/// Looks for cures of a table's race; `checked` is the table as it is.
pub fn search(table: &[u8], checked: Facts, goal: Goal, checker: &mut dyn Judge) -> Search {
    let mut searcher = Searcher::new(table, checked.run, goal, checker);
    let changes = catalogue(checked, goal);
    let tried = searcher.instructions.len() + changes.len();
    let mut cures = searcher.stronger(&[]);
    cures.extend(changes.iter().filter_map(|change| searcher.alone(change)));
    let is_good = |cure: &Cure| cure.outcome.is_good() && !cure.is_silent();
    if !cures.iter().any(is_good) {
        for change in changes.iter().take(MOST_BASES) {
            cures.extend(searcher.stronger(std::slice::from_ref(change)));
        }
    }
    let mut found = Search {
        tried,
        ..Search::default()
    };
    // New rows are for where the rows that are there don't do.
    if !cures.iter().any(|cure| is_good(cure) && cure.is_stronger()) {
        let (new, is_full) = searcher.with_new_rows(checked);
        cures.extend(new);
        found.is_full = is_full;
    }
    let is_silence_apt = is_seqlock(checked.run, goal);
    cures.sort_by_key(|cure| cure.rank(is_silence_apt));
    found.cures = without_needless(&cures);
    for cure in &mut found.cures {
        cure.order = searcher.order(cure);
    }
    found.is_cut = searcher.budget == 0;
    found
}

/// How little a row may have to do with a race: rows of the racing agents
/// come first, those near the racing rows before others.
fn distance(run: &Run, goal: Goal, row: usize) -> (bool, usize, usize) {
    let racing = [goal.first, goal.second];
    let agents = racing.map(|racing| run.rows[racing].agent);
    let is_others = !agents.contains(&run.rows[row].agent);
    let steps = racing.map(|racing| racing.abs_diff(row));
    (is_others, steps[0].min(steps[1]), row)
}

impl<'a> Searcher<'a> {
    fn new(table: &'a [u8], run: &'a Run, goal: Goal, checker: &'a mut dyn Judge) -> Searcher<'a> {
        let chains = checker.chains();
        let reduction = Reduction::of(table, goal, chains);
        let tight = Reduction::tight(table, goal, chains);
        let mut instructions = instructions(run);
        instructions.retain(|instruction| {
            let mut rows = instruction.rows.iter();
            let most = Strength::most(run, instruction);
            rows.any(|row| tight.has(*row)) && !instruction.edits(run, most).is_empty()
        });
        instructions.sort_by_key(|instruction| {
            let rows = instruction.rows.iter();
            rows.map(|row| distance(run, goal, *row)).min()
        });
        let rows = Run::of(reduction.table()).rows.len();
        Searcher {
            table,
            run,
            goal,
            checker,
            reduction,
            tight,
            instructions,
            // A check takes time with the square of the rows, at the least.
            budget: 12_000_000 / ((rows + 8) * (rows + 8)),
        }
    }

    /// Whether the goal's rows don't race with these edits; a table that is
    /// refused then, or may not be asked of any more, has no answer.
    fn mends(&mut self, edits: &[Edit]) -> bool {
        let Some(budget) = self.budget.checked_sub(1) else {
            return false;
        };
        self.budget = budget;
        let reduction = match Reduction::is_tight_with(edits) {
            true => &self.tight,
            false => &self.reduction,
        };
        let table = reduction.edited(edits);
        let goal = reduction.goal(self.goal);
        self.is_ended(&table, goal)
    }

    /// Whether a table's first race comes after the goal, if it has one and
    /// isn't refused. A fill looks for races before anything else.
    fn is_ended(&mut self, table: &[u8], goal: Goal) -> bool {
        match self.checker.fill(table) {
            FillAnswer::Filled(_) | FillAnswer::None => true,
            FillAnswer::Race {
                first,
                second,
                byte,
            } => Goal::new(first, second, byte) > goal,
            _ => false,
        }
    }

    /// All edits of a change and of stronger instructions, none if they want
    /// different things.
    fn edits(&self, base: &[Change], chosen: &[(usize, Strength)]) -> Option<Vec<Edit>> {
        let mut edits: Vec<Edit> = Vec::new();
        for change in base {
            edits = merged(&edits, &change.edits)?;
        }
        for (place, strength) in chosen {
            let more = self.instructions[*place].edits(self.run, *strength);
            edits = merged(&edits, &more)?;
        }
        Some(edits)
    }

    fn does(&mut self, base: &[Change], chosen: &[(usize, Strength)]) -> bool {
        let edits = self.edits(base, chosen);
        edits.is_some_and(|edits| self.mends(&edits))
    }

    /// Each instruction that does alone, beside a change if there is one; else
    /// some that do together.
    fn stronger(&mut self, base: &[Change]) -> Vec<Cure> {
        let all: Chosen = (0..self.instructions.len())
            .filter(|place| {
                let rows = &self.instructions[*place].rows;
                let mut changed = base.iter().flat_map(|change| &change.rows);
                !changed.any(|row| rows.contains(row))
            })
            .map(|place| {
                let most = Strength::most(self.run, &self.instructions[place]);
                (place, most)
            })
            .collect();
        let is_enough_alone = !base.is_empty() && self.does(base, &[]);
        if is_enough_alone || all.is_empty() || !self.does(base, &all) {
            return Vec::new();
        }
        let mut sets: Vec<Chosen> = Vec::new();
        for one in &all {
            if self.does(base, &[*one]) {
                sets.push(vec![*one]);
            }
        }
        if sets.is_empty() {
            sets = self.together(base, &all);
        }
        let weakened: Vec<Chosen> = sets
            .into_iter()
            .map(|set| self.weakened(base, set))
            .collect();
        weakened
            .iter()
            .filter_map(|set| self.best(base, set))
            .collect()
    }

    /// Sets of instructions of which none can be left out: the nearest, rather
    /// those that synchronize, rather plain ones.
    fn together(&mut self, base: &[Change], all: &Chosen) -> Vec<Chosen> {
        let is_plain = |(place, _): &(usize, Strength)| {
            let row = self.instructions[*place].rows[0];
            self.run.rows[row].is_plain()
        };
        let mut orders = vec![all.clone(), all.clone(), all.clone()];
        orders[1].sort_by_key(is_plain);
        orders[2].sort_by_key(|one| !is_plain(one));
        let mut sets: Vec<Chosen> = Vec::new();
        for order in orders {
            let mut set = self.needed(base, order);
            set.sort_by_key(|(place, _)| *place);
            if !sets.contains(&set) {
                sets.push(set);
            }
        }
        sets
    }

    /// What is needed of a set, the last left out first, in ever smaller parts.
    fn needed(&mut self, base: &[Change], mut set: Chosen) -> Chosen {
        let mut size = set.len().div_ceil(2);
        loop {
            let mut end = set.len();
            while end > 0 {
                let begin = end.saturating_sub(size);
                let without = [&set[..begin], &set[end..]].concat();
                if self.does(base, &without) {
                    set = without;
                }
                end = begin;
            }
            if size == 1 {
                return set;
            }
            size = size.div_ceil(2);
        }
    }

    /// The set with each instruction as weak as still does.
    fn weakened(&mut self, base: &[Change], mut set: Chosen) -> Chosen {
        for place in 0..set.len() {
            let has = Strength::of(self.run, &self.instructions[set[place].0]);
            for lesser in LESSER {
                let strength = lesser(set[place].1, has, self.goal_classes(has));
                self.try_lesser(base, &mut set, place, strength);
            }
            let row = self.instructions[set[place].0].rows[0];
            let least = match self.run.rows[row].kind < BARRIER && has.scope == 0 {
                true => 1,
                false => has.scope,
            };
            for scope in least..DEVICE {
                let strength = Strength {
                    scope,
                    ..set[place].1
                };
                if self.try_lesser(base, &mut set, place, strength) {
                    break;
                }
            }
        }
        set
    }

    /// Takes a lesser strength if it does.
    fn try_lesser(
        &mut self,
        base: &[Change],
        set: &mut Chosen,
        place: usize,
        strength: Strength,
    ) -> bool {
        let (instruction, old) = set[place];
        let row = self.run.rows[self.instructions[instruction].rows[0]];
        let fitted = strength.fitted(row);
        if fitted == old {
            return false;
        }
        set[place].1 = fitted;
        let does = self.does(base, set);
        if !does {
            set[place].1 = old;
        }
        does
    }

    /// The classes that an instruction is to name: those that it has, or else
    /// the racing rows'.
    fn goal_classes(&self, has: Strength) -> u8 {
        if has.order != 0 {
            return has.classes;
        }
        let rows = &self.run.rows;
        rows[self.goal.first].class_bit() | rows[self.goal.second].class_bit()
    }

    /// Of a set that does as it is, with the flags that go with its orders and
    /// in wider scopes, what leaves least trouble.
    fn best(&mut self, base: &[Change], set: &Chosen) -> Option<Cure> {
        let mut best = self.cure(base, set);
        let mut flagged = set.clone();
        for (place, strength) in &mut flagged {
            let row = self.instructions[*place].rows[0];
            *strength = strength.flagged(self.run.rows[row]);
        }
        let mut variants = vec![flagged.clone()];
        for wider in 1..=DEVICE {
            let mut wide = flagged.clone();
            for (place, strength) in &mut wide {
                let has = Strength::of(self.run, &self.instructions[*place]);
                if strength.scope > has.scope {
                    strength.scope = DEVICE.min(strength.scope + wider);
                }
            }
            variants.push(wide);
        }
        variants.dedup();
        for variant in variants {
            if best
                .as_ref()
                .is_some_and(|best| best.outcome == Outcome::RaceFree)
            {
                break;
            }
            let cure = self.cure(base, &variant);
            let is_better = match (&best, &cure) {
                (Some(best), Some(cure)) => cure.outcome < best.outcome,
                _ => best.is_none(),
            };
            if is_better {
                best = cure;
            }
        }
        best
    }

    /// The cure of a change and a set of stronger instructions, if it is one.
    fn cure(&mut self, base: &[Change], set: &Chosen) -> Option<Cure> {
        let mut changes = base.to_vec();
        let stronger = set.iter();
        changes.extend(
            stronger.filter_map(|(place, strength)| {
                self.instructions[*place].change(self.run, *strength)
            }),
        );
        let edits = self.edits(base, set)?;
        self.cured(changes, Remedy::of(edits))
    }

    /// A change alone, if it is a cure.
    fn alone(&mut self, change: &Change) -> Option<Cure> {
        let does = self.mends(&change.edits);
        does.then(|| self.cured(vec![change.clone()], Remedy::of(change.edits.clone())))?
    }

    /// The cure that comes of changes and new rows, if the proved checker's
    /// answer says that it is one.
    fn cured(&mut self, changes: Vec<Change>, remedy: Remedy) -> Option<Cure> {
        let mut cure = Cure {
            changes,
            edits: remedy.edits,
            insertions: remedy.insertions,
            dependencies: remedy.dependencies,
            order: None,
            answer: OwnedCheckAnswer::RaceFree,
            outcome: Outcome::RaceFree,
            has_room: true,
        };
        let table = stepped(self.table, &cure.steps()).ok()?;
        self.judged(&table, &mut cure).then_some(cure)
    }

    /// Whether a table's race is gone, and what is then.
    fn judged(&mut self, table: &[u8], cure: &mut Cure) -> bool {
        let goal = moved(self.goal, cure);
        if !self.is_ended(table, goal) {
            return false;
        }
        let answer = self.checker.check(table);
        let Some(outcome) = Outcome::of(&answer, goal) else {
            return false;
        };
        cure.answer = answer.into_owned();
        cure.outcome = match outcome {
            Outcome::OtherRace { .. } => {
                let left = self.checker.racing(table).unwrap_or(1);
                Outcome::OtherRace { left }
            }
            other => other,
        };
        true
    }

    /// What orders the rows once a cure is made.
    fn order(&mut self, cure: &Cure) -> Option<Order> {
        if !cure.has_room {
            return None;
        }
        let table = stepped(self.table, &cure.steps()).ok()?;
        let chains = self.checker.chains();
        let reduction = Reduction::tight(&table, moved(self.goal, cure), chains);
        let goal = reduction.goal(moved(self.goal, cure));
        let (first, second) = (goal.first, goal.second);
        if Run::of(reduction.table()).rows.len() > ORDER_ROWS {
            return None;
        }
        let relations = Relations::of(chains, reduction.table(), &Notes::default());
        let checked = relations.facts();
        if checked.state.mutually_ordered(first, second) {
            return Some(Order::Mutual);
        }
        let ways = [
            (self.goal.first, (first, second)),
            (self.goal.second, (second, first)),
        ];
        ways.into_iter().find_map(|(first, (before, after))| {
            let rule = checked.rule(before, after, goal.byte)?;
            Some(Order::Rule { rule, first })
        })
    }

    /// Cures with new rows, those that leave least trouble, and whether the
    /// table is too full for them.
    fn with_new_rows(&mut self, checked: Facts) -> (Vec<Cure>, bool) {
        let found = remedies(checked, self.goal);
        let has_room =
            |remedy: &Remedy| checked.run.rows.len() + remedy.insertions.len() <= MAX_ROWS;
        let (fitting, others): (Vec<Remedy>, Vec<Remedy>) = found.into_iter().partition(has_room);
        let mut cures: Vec<Cure> = fitting
            .into_iter()
            .filter_map(|remedy| self.cured(remedy.changes.clone(), remedy))
            .collect();
        let is_full = cures.is_empty() && !others.is_empty();
        if is_full {
            cures = self.beyond_room();
        }
        cures.sort_by_key(|cure| cure.rank(false));
        // What leaves more trouble than another one isn't needed.
        let part = |outcome: Outcome| (outcome == Outcome::RaceFree, outcome.is_good());
        let least = cures.first().map(|cure| part(cure.outcome));
        cures.retain(|cure| Some(part(cure.outcome)) == least);
        cures.truncate(ENOUGH_REMEDIES);
        (cures, is_full)
    }

    /// What would be put in if there were room: tried with the racing agents'
    /// rows alone. Rows of others take no order away.
    fn beyond_room(&mut self) -> Vec<Cure> {
        let chains = self.checker.chains();
        let reduction = Reduction::of_agents(self.table, self.goal, chains);
        let goal = reduction.goal(self.goal);
        let relations = Relations::of(chains, reduction.table(), &Notes::default());
        let checked = relations.facts();
        let mut searcher = Searcher::new(reduction.table(), checked.run, goal, self.checker);
        let cures: Vec<Cure> = remedies(checked, goal)
            .into_iter()
            .filter_map(|remedy| searcher.cured(remedy.changes.clone(), remedy))
            .collect();
        let cures = cures.into_iter().filter(|cure| cure.outcome.is_good());
        cures.map(|cure| reduction.of_whole(cure)).collect()
    }
}

/// The goal's rows when a cure's new rows are put in.
fn moved(goal: Goal, cure: &Cure) -> Goal {
    cure.insertions.iter().fold(goal, |goal, insertion| Goal {
        first: insertion.moved(goal.first),
        second: insertion.moved(goal.second),
        ..goal
    })
}

/// Makes a strength lesser, with what the instruction has and the classes that
/// it is to name.
type Lesser = fn(Strength, Strength, u8) -> Strength;

/// What is taken away, one after the other.
const LESSER: [Lesser; 9] = [
    |strength, has, _| without_order(strength, has, ACQUIRE),
    |strength, has, _| without_order(strength, has, RELEASE),
    |strength, has, _| without_flag(strength, has, MAKE_AVAILABLE),
    |strength, has, _| without_flag(strength, has, MAKE_VISIBLE),
    |strength, has, _| without_flag(strength, has, NON_PRIVATE),
    |strength, _, named| without_class(strength, named, 0),
    |strength, _, named| without_class(strength, named, 1),
    |strength, _, named| without_class(strength, named, 2),
    |strength, _, named| without_class(strength, named, 3),
];

fn without_order(strength: Strength, has: Strength, bit: u8) -> Strength {
    let order = strength.order & !bit | has.order;
    Strength { order, ..strength }
}

fn without_flag(strength: Strength, has: Strength, bit: u8) -> Strength {
    let flags = strength.flags & !bit | has.flags;
    Strength { flags, ..strength }
}

fn without_class(strength: Strength, named: u8, class: u8) -> Strength {
    let classes = strength.classes & !(1 << class) | named;
    Strength {
        classes,
        ..strength
    }
}
