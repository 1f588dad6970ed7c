//! Changes that strengthen no instruction: another access, another variable,
//! another run.

use crate::change::{Change, Reason};
use crate::edit::{Edit, Field};
use crate::facts::{Facts, Goal};
use crate::instruction::{instructions, Instruction};
use crate::ranks::{free_rank, last_writer, writers_of_place};
use crate::reduction::{is_step, reached};
use second::table::*;
use second::INITIAL;

/// The changes, the racing rows' own first.
pub fn catalogue(checked: Facts, goal: Goal) -> Vec<Change> {
    let maker = Maker {
        checked,
        goal,
        instructions: instructions(checked.run),
    };
    let mut changes = Vec::new();
    changes.extend(maker.both_atomic());
    for (row, other) in [(goal.first, goal.second), (goal.second, goal.first)] {
        changes.extend(maker.reference(row, other));
        changes.extend(maker.alone_atomic(row, other));
    }
    changes.extend(maker.other_sources());
    changes.extend(maker.sequences());
    changes
}

struct Maker<'a> {
    checked: Facts<'a>,
    goal: Goal,
    instructions: Vec<Instruction>,
}

impl Maker<'_> {
    /// The instruction of a row.
    fn instruction(&self, row: usize) -> &Instruction {
        let mut all = self.instructions.iter();
        let found = all.find(|instruction| instruction.rows.contains(&row));
        found.expect("every row is of an instruction")
    }

    fn change(&self, row: usize, reason: Reason, mut edits: Vec<Edit>) -> Change {
        let rows = &self.checked.run.rows;
        edits.retain(|edit| edit.field.of(rows[edit.row]) != edit.value);
        Change {
            rows: self.instruction(row).rows.clone(),
            edits,
            reasons: vec![reason],
        }
    }

    /// One variable for both racing rows: an image and a buffer are never one.
    fn reference(&self, row: usize, other: usize) -> Option<Change> {
        let rows = &self.checked.run.rows;
        let (has, wanted) = (rows[row], rows[other]);
        if has.reference == wanted.reference || has.class != wanted.class {
            return None;
        }
        let of_line = self.instruction(row).rows.iter();
        let edits = of_line.map(|row| Edit::new(*row, Field::Reference, wanted.reference));
        let edits = edits.collect();
        Some(self.change(row, Reason::OtherReference { row, other }, edits))
    }

    /// Whether a row can be an atomic in a shader.
    fn may_be_atomic(&self, row: usize) -> bool {
        let fields = self.checked.run.rows[row];
        let has_bytes =
            matches!(fields.length, 4 | 8) && fields.start.is_multiple_of(u16::from(fields.length));
        let is_shader = self.checked.run.sort(fields.agent) == SHADER;
        fields.is_atomic() || has_bytes && is_shader && fields.class != OUTPUT
    }

    /// A racing plain row made atomic beside an atomic.
    fn alone_atomic(&self, row: usize, other: usize) -> Option<Change> {
        let rows = &self.checked.run.rows;
        let is_apt = rows[row].is_plain() && rows[other].is_atomic() && self.may_be_atomic(row);
        is_apt.then(|| self.atomic(&[row]))
    }

    /// Both racing rows made atomic, and with them the plain rows that race by
    /// the same reference.
    fn both_atomic(&self) -> Option<Change> {
        let rows = &self.checked.run.rows;
        let (first, second) = (rows[self.goal.first], rows[self.goal.second]);
        let place = |row: Row| (row.start, row.length, row.reference);
        if !first.is_plain() || !second.is_plain() || place(first) != place(second) {
            return None;
        }
        let racing = self.racing_by(first.reference);
        let are_apt = racing.iter().all(|row| self.may_be_atomic(*row));
        let pair = [self.goal.first, self.goal.second];
        let fewest = || pair.iter().all(|row| self.may_be_atomic(*row));
        match (are_apt, fewest()) {
            (true, _) => Some(self.atomic(&racing)),
            (_, true) => Some(self.atomic(&pair)),
            _ => None,
        }
    }

    /// The plain rows by a reference that race with another one of it.
    fn racing_by(&self, reference: u16) -> Vec<usize> {
        let rows = &self.checked.run.rows;
        let is_plain = |row: &usize| rows[*row].is_plain() && rows[*row].reference == reference;
        let all: Vec<usize> = (0..rows.len()).filter(is_plain).collect();
        let races = |x: usize, y: usize| {
            let mut bytes = self.checked.shared_bytes(x, y).into_iter();
            bytes.any(|byte| self.checked.state.races_at(x.min(y), x.max(y), byte))
        };
        let raced = all
            .iter()
            .copied()
            .filter(|x| all.iter().any(|y| races(*x, *y)));
        raced.collect()
    }

    /// The instructions of these rows made relaxed atomics, in the narrowest
    /// scope that the racing agents share.
    fn atomic(&self, racing: &[usize]) -> Change {
        let run = self.checked.run;
        let mut rows: Vec<usize> = Vec::new();
        for row in racing {
            rows.extend(&self.instruction(*row).rows);
        }
        rows.sort_unstable();
        rows.dedup();
        let agents: Vec<u8> = rows.iter().map(|row| run.rows[*row].agent).collect();
        let shared = |scope: &u8| {
            let with = |agent: &u8| run.share_scope(agents[0], *agent, *scope);
            agents.iter().all(with) && self.is_shared(*scope)
        };
        let scope = (SUBGROUP..=DEVICE).find(shared).unwrap_or(DEVICE);
        let mut edits = Vec::new();
        let mut more = 0;
        for row in &rows {
            let writes = run.rows[*row].writes();
            let kind = if writes { ATOMIC_WRITE } else { ATOMIC_READ };
            edits.push(Edit::new(*row, Field::Kind, kind));
            edits.push(Edit::new(*row, Field::Scope, scope));
            edits.push(Edit::new(*row, Field::Flags, NON_PRIVATE));
            if writes {
                more += 1;
                edits.push(Edit::new(*row, Field::Rank, free_rank(run, *row, more)));
            }
        }
        edits.retain(|edit| edit.field.of(run.rows[edit.row]) != edit.value);
        let row = racing[0];
        Change {
            reasons: vec![Reason::NotAtomic { row, scope }],
            rows,
            edits,
        }
    }

    /// Whether the racing agents share a scope.
    fn is_shared(&self, scope: u8) -> bool {
        let run = self.checked.run;
        let [one, other] = [self.goal.first, self.goal.second].map(|row| run.rows[row].agent);
        run.share_scope(one, other, scope)
    }

    /// Sources that an atomic didn't read: those that a racing row leads to,
    /// of atomics that lead to the other one, unless the source comes after its
    /// reader anyway.
    fn other_sources(&self) -> Vec<Change> {
        let run = self.checked.run;
        let (first, second) = (self.goal.first, self.goal.second);
        let after = [first, second].map(|row| reached(run, row, is_step));
        let back = |run: &_, x: usize, y: usize| is_step(run, y, x);
        let before = [first, second].map(|row| reached(run, row, back));
        let mut changes = Vec::new();
        for row in (0..run.rows.len()).filter(|row| run.rows[*row].is_atomic_reader()) {
            if !before[0][row] && !before[1][row] {
                continue;
            }
            let from_row = reached(run, row, is_step);
            for source in writers_of_place(run, row) {
                let forth = after[0][source] && before[1][row];
                let is_way = forth || after[1][source] && before[0][row];
                let is_read = source as u16 == run.rows[row].source;
                if is_way && !is_read && !from_row[source] {
                    let edits = vec![Edit::new(row, Field::Source, source as u16)];
                    let reason = Reason::OtherSource { row, source };
                    changes.push(Change {
                        rows: vec![row],
                        edits,
                        reasons: vec![reason],
                    });
                }
            }
        }
        changes
    }

    /// Atomic writes on a way that may end a release sequence, as
    /// read-modify-writes.
    fn sequences(&self) -> Vec<Change> {
        let rows = &self.checked.run.rows;
        let writes = self.instructions.iter();
        let writes = writes.filter(|write| rows[write.rows[0]].kind == ATOMIC_WRITE);
        let writes = writes.map(|instruction| {
            let edits = instruction.rows.iter().flat_map(|row| self.ends(*row));
            let row = instruction.rows[0];
            self.change(row, Reason::EndsSequence { row }, edits.collect())
        });
        writes.collect()
    }

    fn ends(&self, row: usize) -> [Edit; 2] {
        let run = self.checked.run;
        let before = writers_of_place(run, row).into_iter();
        let before = before.filter(|other| run.is_later(run.rows[row].rank, run.rows[*other].rank));
        let source = last_writer(run, before.collect());
        let source = source.map_or(INITIAL, |row| row as u16);
        [
            Edit::new(row, Field::Kind, ATOMIC_RMW),
            Edit::new(row, Field::Source, source),
        ]
    }
}

/// The class that has no atomics.
const OUTPUT: u8 = 3;
