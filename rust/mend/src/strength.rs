//! What an instruction has of order, classes, flags and scope, and the most
//! that it may have. More of it orders more, and never less.

use crate::change::{Change, Reason};
use crate::edit::{Edit, Field};
use crate::instruction::Instruction;
use crate::ranks::{free_rank, has_twin};
use crate::run::Run;
use second::table::*;

/// Order, semantics classes, flags and scope of all rows of an instruction.
#[derive(Clone, Copy, Debug, PartialEq, Eq)]
pub struct Strength {
    pub order: u8,
    pub classes: u8,
    pub flags: u8,
    pub scope: u8,
}

impl Strength {
    /// What the rows of an instruction have together.
    pub fn of(run: &Run, instruction: &Instruction) -> Strength {
        let rows = instruction.rows.iter().map(|row| run.rows[*row]);
        let none = Strength {
            order: 0,
            classes: 0,
            flags: 0,
            scope: 0,
        };
        rows.fold(none, |sum, row| Strength {
            order: sum.order | row.order,
            classes: sum.classes | row.classes,
            flags: sum.flags | row.flags,
            scope: sum.scope.max(row.scope),
        })
    }

    /// All that an instruction may have; a host's access is non-private at
    /// most, and a queue's operation has nothing.
    pub fn most(run: &Run, instruction: &Instruction) -> Strength {
        let row = run.rows[instruction.rows[0]];
        let has = Strength::of(run, instruction);
        match run.sort(row.agent) {
            QUEUE => return has,
            HOST => {
                let flags = has.flags | NON_PRIVATE;
                return Strength { flags, ..has };
            }
            _ => (),
        }
        let order = match row.kind {
            PLAIN_READ | PLAIN_WRITE => RELAXED,
            ATOMIC_READ => ACQUIRE,
            ATOMIC_WRITE => RELEASE,
            _ => BOTH,
        };
        let is_plain = row.is_plain();
        let mut flags = if row.is_barrier() { 0 } else { NON_PRIVATE };
        if order & RELEASE != 0 || is_plain && row.writes() {
            flags |= MAKE_AVAILABLE;
        }
        if order & ACQUIRE != 0 || is_plain && row.reads() {
            flags |= MAKE_VISIBLE;
        }
        Strength {
            order,
            classes: if order == RELAXED { 0 } else { 15 },
            flags,
            scope: DEVICE,
        }
    }

    /// Without what the rest doesn't allow: flags need their order, classes
    /// some order, and a plain access's scope one of the flags.
    pub fn fitted(self, row: Row) -> Strength {
        let mut fitted = self;
        if row.is_plain() {
            let makes = MAKE_AVAILABLE | MAKE_VISIBLE;
            if self.flags & makes == 0 {
                fitted.scope = 0;
            } else {
                fitted.flags |= NON_PRIVATE;
            }
            return fitted;
        }
        if self.order & RELEASE == 0 {
            fitted.flags &= !MAKE_AVAILABLE;
        }
        if self.order & ACQUIRE == 0 {
            fitted.flags &= !MAKE_VISIBLE;
        }
        if self.order == RELAXED {
            fitted.classes = 0;
        }
        fitted
    }

    /// With the flag that goes with each order.
    pub fn flagged(self, row: Row) -> Strength {
        let flags = self.flags | flags_of(self.order);
        Strength { flags, ..self }.fitted(row)
    }
}

impl Instruction {
    /// The edits that give every row this strength. A writer whose scope grows
    /// gets a rank of its own where it shares one.
    pub fn edits(&self, run: &Run, strength: Strength) -> Vec<Edit> {
        let mut edits = Vec::new();
        let mut more = 0;
        for row in &self.rows {
            let fields = run.rows[*row];
            let wanted = [
                (Field::Order, strength.order),
                (Field::Classes, strength.classes),
                (Field::Flags, strength.flags),
                (Field::Scope, strength.scope),
            ];
            let wanted = wanted
                .into_iter()
                .filter(|(field, value)| field.of(fields) != u16::from(*value));
            edits.extend(wanted.map(|(field, value)| Edit::new(*row, field, value)));
            if strength.scope > fields.scope && has_twin(run, *row) {
                more += 1;
                let rank = free_rank(run, *row, more);
                edits.push(Edit::new(*row, Field::Rank, rank));
            }
        }
        edits
    }

    /// The change that gives every row this strength, none if they have it.
    pub fn change(&self, run: &Run, strength: Strength) -> Option<Change> {
        let edits = self.edits(run, strength);
        let row = edits.first()?.row;
        let is_ranked = edits.iter().any(|edit| edit.field == Field::Rank);
        Some(Change {
            rows: self.rows.clone(),
            reasons: reasons(run, row, strength, is_ranked),
            edits,
        })
    }
}

/// The flags that go with an order.
fn flags_of(order: u8) -> u8 {
    let of_order = [(RELEASE, MAKE_AVAILABLE), (ACQUIRE, MAKE_VISIBLE)];
    let goes_with = of_order.iter().filter(|(bit, _)| order & bit != 0);
    goes_with.map(|(_, flag)| flag).sum()
}

/// What a plain row lacks of a strength besides its scope.
fn plain_reason(row: usize, has: Row, strength: Strength) -> Option<Reason> {
    let scope = strength.scope;
    let more = strength.flags & !has.flags;
    if more & (MAKE_AVAILABLE | MAKE_VISIBLE) != 0 {
        return Some(Reason::PlainFlag { row, scope });
    }
    (more & NON_PRIVATE != 0).then_some(Reason::Private { row })
}

/// What a row lacks of a strength.
fn reasons(run: &Run, row: usize, strength: Strength, is_ranked: bool) -> Vec<Reason> {
    let has = run.rows[row];
    let lacks_flags = strength.flags & !has.flags & (MAKE_AVAILABLE | MAKE_VISIBLE);
    let scope = strength.scope;
    let narrow = (scope > has.scope).then_some(Reason::Narrow {
        row,
        scope,
        is_ranked,
    });
    if has.is_plain() {
        return match plain_reason(row, has, strength) {
            Some(reason) => vec![reason],
            None => narrow.into_iter().collect(),
        };
    }
    let order = strength.order & !has.order;
    let flags_of_order = flags_of(order);
    let mut reasons = Vec::new();
    if order != 0 {
        let classes = strength.classes;
        let is_flagged = lacks_flags & flags_of_order == flags_of_order;
        reasons.push(Reason::LacksOrder {
            row,
            order,
            classes,
            is_flagged,
        });
    }
    if has.order != RELAXED {
        let lacking = (0..4).filter(|class| strength.classes & !has.classes & 1 << class != 0);
        reasons.extend(lacking.map(|class| Reason::LacksClass { row, class }));
    }
    let flag = lacks_flags & !flags_of_order;
    if flag != 0 {
        reasons.push(Reason::NoFlag { row, flag });
    }
    reasons.extend(narrow);
    if reasons.is_empty() {
        reasons.push(Reason::Mixed { row });
    }
    reasons
}
