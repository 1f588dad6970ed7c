//! The part of a table that two rows' order at a byte depends on. Large tables
//! have many rows that it doesn't depend on, and asking of fewer is quicker.

use crate::cure::Cure;
use crate::edit::{edited, Edit, Field};
use crate::facts::Goal;
use crate::run::{first_row, Run};
use second::table::{Row, ATOMIC_RMW, ROW_BYTES};
use second::{row_bytes, Chains, BLANK, INITIAL};
use std::collections::HashSet;

/// A table of fewer rows in which the goal's rows race exactly if they do in
/// the whole one.
pub struct Reduction {
    table: Vec<u8>,
    /// The rows that were kept, by the numbers that they had.
    kept: Vec<usize>,
}

impl Reduction {
    /// The reduction that stands whatever the edits.
    pub fn of(table: &[u8], goal: Goal, chains: Chains) -> Reduction {
        let run = Run::of(table);
        let kept = relevant(&run, goal, chains);
        Reduction::to(table, &run, kept)
    }

    /// The smaller one that stands while no edit changes what a row reads or
    /// which memory it accesses: rows on no way from one of the goal's rows to
    /// the other are left out too.
    pub fn tight(table: &[u8], goal: Goal, chains: Chains) -> Reduction {
        let run = Run::of(table);
        let kept = on_ways(&run, goal, relevant(&run, goal, chains));
        Reduction::to(table, &run, kept)
    }

    /// The rows that matter of the racing agents alone.
    pub fn of_agents(table: &[u8], goal: Goal, chains: Chains) -> Reduction {
        let run = Run::of(table);
        let racing = [goal.first, goal.second].map(|row| run.rows[row].agent);
        let mut kept = relevant(&run, goal, chains);
        kept.retain(|row| racing.contains(&run.rows[*row].agent));
        Reduction::to(table, &run, kept)
    }

    /// Whether a row was kept.
    pub fn has(&self, row: usize) -> bool {
        self.place(row).is_some()
    }

    /// A cure of this table told of the whole one, which has no room for its
    /// new rows.
    pub fn of_whole(&self, mut cure: Cure) -> Cure {
        let kept = |row: usize| self.kept.get(row).copied().unwrap_or(row);
        for change in &mut cure.changes {
            change.rows.iter_mut().for_each(|row| *row = kept(*row));
            change
                .edits
                .iter_mut()
                .for_each(|edit| edit.row = kept(edit.row));
            for reason in &mut change.reasons {
                *reason = reason.renumbered(kept);
            }
        }
        cure.edits
            .iter_mut()
            .for_each(|edit| edit.row = kept(edit.row));
        cure.has_room = false;
        cure
    }

    /// Whether the smaller one stands with these edits.
    pub fn is_tight_with(edits: &[Edit]) -> bool {
        let fields = [Field::Order, Field::Scope, Field::Classes, Field::Flags];
        edits.iter().all(|edit| fields.contains(&edit.field))
    }

    fn to(table: &[u8], run: &Run, kept: Vec<usize>) -> Reduction {
        let first_row = first_row(table);
        let mut reduced = table[..first_row].to_vec();
        for row in &kept {
            let mut row = run.rows[*row];
            row.source = source(row, &kept);
            reduced.extend(row_bytes(row));
        }
        debug_assert_eq!(reduced.len(), first_row + ROW_BYTES * kept.len());
        if run.has_hosts {
            let dependencies = dependencies(run, &kept);
            reduced.extend((dependencies.len() as u16).to_be_bytes());
            let rows = dependencies.iter().flatten();
            reduced.extend(rows.flat_map(|row| row.to_be_bytes()));
        }
        let count = reduced.len() as u32 - 4;
        reduced[..4].copy_from_slice(&count.to_be_bytes());
        reduced[6] = kept.len() as u8;
        Reduction {
            table: reduced,
            kept,
        }
    }

    pub fn table(&self) -> &[u8] {
        &self.table
    }

    /// A row's number here.
    fn place(&self, row: usize) -> Option<usize> {
        self.kept.binary_search(&row).ok()
    }

    /// The goal by the numbers here: its rows are always kept.
    pub fn goal(&self, goal: Goal) -> Goal {
        Goal {
            first: self.place(goal.first).unwrap_or(0),
            second: self.place(goal.second).unwrap_or(0),
            ..goal
        }
    }

    /// The reduced table with edits of the whole one made; those of rows that
    /// don't matter are left out.
    pub fn edited(&self, edits: &[Edit]) -> Vec<u8> {
        let edits: Vec<Edit> = edits
            .iter()
            .filter_map(|edit| {
                let row = self.place(edit.row)?;
                let value = match edit.field {
                    Field::Source if edit.value < BLANK => {
                        let source = self.place(usize::from(edit.value));
                        source.map_or(INITIAL, |source| source as u16)
                    }
                    _ => edit.value,
                };
                Some(Edit {
                    row,
                    value,
                    ..*edit
                })
            })
            .collect();
        edited(&self.table, &edits)
    }
}

/// The rows that the order of two rows at a byte depends on: themselves, what
/// synchronizes, their agents' plain rows by one of their references that
/// could make the byte available or visible, and rows that dependencies join.
pub fn relevant(run: &Run, goal: Goal, chains: Chains) -> Vec<usize> {
    let racing = [goal.first, goal.second];
    let is_near = |row: Row| {
        let mut rows = racing.iter().map(|racing| run.rows[*racing]);
        let is_agent = rows.clone().any(|racing| racing.agent == row.agent);
        let is_reference = rows.any(|racing| racing.reference == row.reference);
        is_agent && is_reference && row.has_byte(goal.byte)
    };
    let rows = run.rows.iter().enumerate();
    let joins = |row: usize| {
        let mut named = run.dependencies.iter().flatten();
        named.any(|named| usize::from(*named) == row)
    };
    // A chain's middle may be any row that makes available or visible.
    let is_element = |row: Row| {
        let is_flagged = row.makes_available() || row.makes_visible();
        chains == Chains::On && is_flagged
    };
    let kept = rows.filter(|(number, row)| {
        let is_needed = racing.contains(number) || !row.is_plain() || joins(*number);
        is_needed || is_near(**row) || is_element(**row)
    });
    kept.map(|(number, _)| number).collect()
}

/// Of these rows, those that a way from one of the goal's rows to the other may
/// go through, a chain's elements among them, and all the atomics of a place
/// that one of those has: release sequences depend on each.
fn on_ways(run: &Run, goal: Goal, rows: Vec<usize>) -> Vec<usize> {
    let (first, second) = (goal.first, goal.second);
    let [after_first, after_second] = [first, second].map(|row| reached(run, row, is_step));
    let back = |run: &Run, x: usize, y: usize| is_step(run, y, x);
    let [before_first, before_second] = [first, second].map(|row| reached(run, row, back));
    let is_between = |row: usize| {
        let forth = after_first[row] && before_second[row];
        let back = after_second[row] && before_first[row];
        forth || back || row == first || row == second
    };
    let place = |row: usize| {
        let row = run.rows[row];
        (row.start, row.length, row.reference)
    };
    let atomics = (0..run.rows.len()).filter(|row| run.rows[*row].is_atomic() && is_between(*row));
    let places: HashSet<(u16, u8, u16)> = atomics.map(place).collect();
    let mut rows = rows;
    rows.retain(|row| {
        let fields = run.rows[*row];
        let is_placed = fields.is_atomic() && places.contains(&place(*row));
        is_between(*row) || is_placed
    });
    rows
}

/// The rows that steps lead to from a row, itself among them.
pub fn reached(run: &Run, row: usize, is_step: impl Fn(&Run, usize, usize) -> bool) -> Vec<bool> {
    let mut reached = vec![false; run.rows.len()];
    reached[row] = true;
    let mut waiting = vec![row];
    while let Some(row) = waiting.pop() {
        for (next, is_reached) in reached.iter_mut().enumerate() {
            if !*is_reached && is_step(run, row, next) {
                *is_reached = true;
                waiting.push(next);
            }
        }
    }
    reached
}

/// Whether happens-before may lead from a row to another at once, whatever
/// orders, scopes, classes and flags they have: in program order, from a head
/// of a release sequence to its reader, between control barriers of one
/// instance, by a dependency.
pub fn is_step(run: &Run, x: usize, y: usize) -> bool {
    let (one, other) = (run.rows[x], run.rows[y]);
    let place = |row: Row| (row.start, row.length, row.reference);
    let reads_from = || {
        let source = usize::from(other.source);
        let follows = |source: usize| {
            let source = run.rows[source];
            source.kind == ATOMIC_RMW && place(source) == place(one)
        };
        one.is_atomic_writer()
            && other.is_atomic_reader()
            && source < run.rows.len()
            && (source == x || follows(source))
    };
    let meets = one.is_control_barrier()
        && other.is_control_barrier()
        && one.instance() == other.instance();
    let depends = || {
        let joined = [x as u16, y as u16];
        run.dependencies.contains(&joined)
    };
    one.agent == other.agent && x < y || meets || reads_from() || depends()
}

/// The dependencies by the numbers of the kept rows, between those that are.
fn dependencies(run: &Run, kept: &[usize]) -> Vec<[u16; 2]> {
    let place = |row: u16| kept.binary_search(&usize::from(row)).ok();
    let joined = run.dependencies.iter().filter_map(|[first, second]| {
        let (first, second) = (place(*first)?, place(*second)?);
        Some([first as u16, second as u16])
    });
    joined.collect()
}

/// A kept row's source by the numbers of the kept rows. What isn't kept is a
/// plain write and in no release sequence, like the initial value.
fn source(row: Row, kept: &[usize]) -> u16 {
    if !row.reads() {
        return row.source;
    }
    let place = kept.binary_search(&usize::from(row.source));
    place.map_or(INITIAL, |place| place as u16)
}

#[cfg(test)]
mod tests {
    use super::*;
    use crate::instruction::Instruction;
    use crate::judge::of_second;
    use crate::strength::Strength;
    use second::{CheckAnswer, State, CYCLE_NUMBERS, WORK_WORDS};
    use tables::{chained, checkable, hex, hosted, Random, Size};

    /// Whether the goal's rows race; none if the table is refused.
    fn races(state: &mut State, chains: Chains, table: &[u8], goal: Goal) -> Option<bool> {
        let answer = state.check_with(chains, table, WORK_WORDS, CYCLE_NUMBERS);
        let is_refused = matches!(answer, CheckAnswer::Refused { .. });
        (!is_refused).then(|| state.races_at(goal.first, goal.second, goal.byte))
    }

    /// Fields with any values that they may have, or rows with all that they
    /// may have.
    fn any_edits(random: &mut Random, run: &Run) -> Vec<Edit> {
        let rows = run.rows.len();
        let count = random.between(1, 4);
        if random.percent(60) {
            let strong = (0..count).flat_map(|_| {
                let row = random.below(rows);
                let instruction = Instruction { rows: vec![row] };
                let most = Strength::most(run, &instruction);
                let edits = instruction.edits(run, most).into_iter();
                edits
                    .filter(|edit| Reduction::is_tight_with(&[*edit]))
                    .collect::<Vec<_>>()
            });
            return strong.collect();
        }
        let fields = [
            (Field::Order, 4),
            (Field::Scope, 5),
            (Field::Classes, 16),
            (Field::Flags, 8),
        ];
        let mut edit = |_| {
            let (field, most) = random.pick(&fields);
            Edit::new(random.below(rows), field, random.below(most) as u16)
        };
        (0..count).map(&mut edit).collect()
    }

    /// Either reduction has the race that the whole table has, with any edits
    /// of orders, scopes, classes and flags made.
    #[test]
    fn reduced_tables_race_as_whole_ones_do() {
        let mut random = Random::new(1907);
        let mut state = State::new();
        let (mut raced, mut ordered, mut smaller) = (0, 0, 0);
        while raced + ordered < 2500 {
            let size = Size::of(3, 16);
            let chains = random.pick(&[Chains::Off, Chains::On]);
            let table = match random.below(3) {
                0 => checkable(&mut random, size).bytes(),
                1 => hosted(&mut random, size).bytes(),
                _ => chained(&mut random, size).bytes(),
            };
            let answer = state.check_with(chains, &table, WORK_WORDS, CYCLE_NUMBERS);
            let Some(goal) = Goal::of(&of_second(&answer)) else {
                continue;
            };
            let loose = Reduction::of(&table, goal, chains);
            let tight = Reduction::tight(&table, goal, chains);
            smaller += usize::from(tight.kept.len() < loose.kept.len());
            for _ in 0..20 {
                let edits = any_edits(&mut random, &Run::of(&table));
                let Some(whole) = races(&mut state, chains, &edited(&table, &edits), goal) else {
                    continue;
                };
                for reduction in [&loose, &tight] {
                    let reduced = reduction.edited(&edits);
                    let found = races(&mut state, chains, &reduced, reduction.goal(goal));
                    assert_eq!(found, Some(whole), "{} {edits:?}", hex(&table));
                }
                raced += usize::from(whole);
                ordered += usize::from(!whole);
            }
        }
        assert!(
            raced > 1000 && ordered > 40 && smaller > 50,
            "{raced} {ordered} {smaller}"
        );
    }
}
