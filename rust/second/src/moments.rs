//! M1 and M2: moments, program order and shared scopes.

use crate::state::State;
use crate::table::*;

/// Place of the moment before a row.
pub const BEFORE: usize = 0;
/// Place of the row itself.
pub const AT: usize = 1;
/// Place of the moment after a row.
pub const AFTER: usize = 2;

/// Number of the moment that is the row itself.
pub(crate) fn at(row: usize) -> usize {
    3 * row + AT
}

pub(crate) fn row_of_moment(moment: usize) -> usize {
    moment / 3
}

pub(crate) fn place_of_moment(moment: usize) -> usize {
    moment % 3
}

/// M1: where a row's availability moment is, if it has one: after a plain
/// write, before an atomic or barrier. Scope 0 gives none.
fn availability_place(row: Row) -> Option<usize> {
    if !row.makes_available() || row.scope == INVOCATION {
        None
    } else if row.is_plain() {
        Some(AFTER)
    } else {
        Some(BEFORE)
    }
}

/// M1: where a row's visibility moment is, if it has one: before a plain
/// read, after an atomic or barrier. Scope 0 gives none.
fn visibility_place(row: Row) -> Option<usize> {
    if !row.makes_visible() || row.scope == INVOCATION {
        None
    } else if row.is_plain() {
        Some(BEFORE)
    } else {
        Some(AFTER)
    }
}

impl State {
    /// Whether a moment of the last admitted table exists.
    pub fn moment_exists(&self, moment: usize) -> bool {
        moment < self.moment_count() && self.moment_exists[moment]
    }

    pub(crate) fn relate_moments(&mut self) {
        for moment in 0..self.moment_count() {
            self.moment_exists[moment] = self.m1_exists(moment);
        }
    }

    /// M1: a row's own moment exists, and its availability and visibility
    /// moments; others don't.
    fn m1_exists(&self, moment: usize) -> bool {
        place_of_moment(moment) == AT
            || self.is_availability_moment(moment)
            || self.is_visibility_moment(moment)
    }

    /// M1: whether a moment is an availability moment.
    pub fn is_availability_moment(&self, moment: usize) -> bool {
        moment < self.moment_count()
            && availability_place(self.rows[row_of_moment(moment)]) == Some(place_of_moment(moment))
    }

    /// M1: whether a moment is a visibility moment.
    pub fn is_visibility_moment(&self, moment: usize) -> bool {
        moment < self.moment_count()
            && visibility_place(self.rows[row_of_moment(moment)]) == Some(place_of_moment(moment))
    }

    pub(crate) fn row_at(&self, moment: usize) -> Row {
        self.rows[row_of_moment(moment)]
    }

    /// M1: program order, between moments of one agent by row, then moment.
    pub(crate) fn program_order(&self, first: usize, second: usize) -> bool {
        self.moment_exists(first)
            && self.moment_exists(second)
            && self.row_at(first).agent == self.row_at(second).agent
            && first < second
    }

    /// M1: classes of an availability or visibility moment.
    pub(crate) fn moment_classes(&self, moment: usize) -> u8 {
        let row = self.row_at(moment);
        if row.is_plain() {
            row.class_bit()
        } else {
            row.classes
        }
    }

    /// M1: whether an availability or visibility moment covers the access's
    /// reference and the byte. That of an atomic or barrier covers all bytes
    /// and every reference of its classes.
    pub(crate) fn moment_covers(&self, moment: usize, access: Row, byte: u32) -> bool {
        let row = self.row_at(moment);
        if row.is_plain() {
            row.reference == access.reference && row.has_byte(byte)
        } else {
            row.classes & access.class_bit() != 0
        }
    }

    /// M2: whether two agents share a scope. Scopes hold between shader agents
    /// only.
    pub(crate) fn m2_share(&self, first: u8, second: u8, scope: u8) -> bool {
        if self.sort_of(first) != SHADER || self.sort_of(second) != SHADER {
            return false;
        }
        let [family, workgroup, subgroup] = self.agents[usize::from(first)];
        let [other_family, other_workgroup, other_subgroup] = self.agents[usize::from(second)];
        match scope {
            INVOCATION => first == second,
            SUBGROUP => {
                family == other_family && workgroup == other_workgroup && subgroup == other_subgroup
            }
            WORKGROUP => family == other_family && workgroup == other_workgroup,
            FAMILY => family == other_family,
            _ => true,
        }
    }

    pub(crate) fn sort_of(&self, agent: u8) -> u16 {
        self.sorts[usize::from(agent)]
    }

    /// Whether the agents of two rows share the scopes of both.
    pub(crate) fn share_both_scopes(&self, first: usize, second: usize) -> bool {
        let (first, second) = (self.rows[first], self.rows[second]);
        self.m2_share(first.agent, second.agent, first.scope)
            && self.m2_share(first.agent, second.agent, second.scope)
    }
}
