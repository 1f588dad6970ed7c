//! L1 to L3: location order; conflicts and races.

use crate::moments::at;
use crate::state::{row_pair, State};
use crate::MAX_LENGTH;

impl State {
    /// Whether a row of the last admitted table is ordered before another at
    /// a byte of both.
    pub fn location_order(&self, first: usize, second: usize, byte: u32) -> bool {
        first < self.row_count
            && second < self.row_count
            && self.rows[first].has_byte(byte)
            && self.rows[second].has_byte(byte)
            && self.location_order[self.location_place(first, second, byte)]
    }

    /// The byte must be one of the first row's.
    fn location_place(&self, first: usize, second: usize, byte: u32) -> usize {
        let offset = byte - self.rows[first].first_byte();
        row_pair(first, second) * MAX_LENGTH + offset as usize
    }

    pub(crate) fn relate_location_order(&mut self) {
        for first in 0..self.row_count {
            for second in 0..self.row_count {
                let everywhere = self.ordered_everywhere_by_rule(first, second);
                for byte in self.rows[first].first_byte()..self.rows[first].end_byte() {
                    self.location_order[self.location_place(first, second, byte)] =
                        self.ordered_at(first, second, byte, everywhere);
                }
            }
        }
    }

    /// The rules that ask no byte: L1, L2, and the two that go by system
    /// synchronization.
    fn ordered_everywhere_by_rule(&self, x: usize, y: usize) -> bool {
        self.rows[x].shares_a_byte_with(self.rows[y])
            && (self.l1(x, y)
                || self.l2(x, y)
                || self.read_system_synchronizes(x, y)
                || self.through_domains(x, y).is_some())
    }

    /// Location order at a byte, of different accesses that both have it: by
    /// L3, or by a rule that asks no byte.
    fn ordered_at(&self, x: usize, y: usize, byte: u32, everywhere: bool) -> bool {
        x != y
            && self.rows[x].has_byte(byte)
            && self.rows[y].has_byte(byte)
            && (everywhere || self.l3(x, y, byte))
    }

    /// L1: agent and reference agree, and X happens-before Y.
    pub(crate) fn l1(&self, x: usize, y: usize) -> bool {
        self.rows[x].agent == self.rows[y].agent
            && self.rows[x].reference == self.rows[y].reference
            && self.happens_before(at(x), at(y))
    }

    /// L2: X reads and doesn't write, both are non-private, and X
    /// happens-before Y.
    pub(crate) fn l2(&self, x: usize, y: usize) -> bool {
        self.rows[x].reads()
            && !self.rows[x].writes()
            && self.rows[x].is_non_private()
            && self.rows[y].is_non_private()
            && self.happens_before(at(x), at(y))
    }

    /// L3: X writes, and an availability chain that begins after it leads to Y,
    /// or, if Y reads, to a visibility chain that ends before Y. An RMW writes
    /// as X and reads as Y, so it is held to the harder rule on each side.
    pub(crate) fn l3(&self, x: usize, y: usize, byte: u32) -> bool {
        self.rows[x].writes()
            && self.rows[x].is_non_private()
            && self.rows[y].is_non_private()
            && self.rows[x].reference == self.rows[y].reference
            && (0..self.moment_count()).any(|first| {
                self.l3_first_availability(first, x, byte)
                    && (0..self.moment_count()).any(|last| {
                        self.availability_chain(first, last)
                            && if self.rows[y].reads() {
                                self.l3_reaches_visibility(last, x, y, byte)
                            } else {
                                self.l3_reaches_write(last, x, y)
                            }
                    })
            })
    }

    /// L3: an availability moment of X's agent, covering X's reference and
    /// the byte, program-ordered after X.
    pub(crate) fn l3_first_availability(&self, moment: usize, x: usize, byte: u32) -> bool {
        self.is_availability_moment(moment)
            && self.program_order(at(x), moment)
            && self.moment_covers(moment, self.rows[x], byte)
    }

    /// L3: a visibility moment of Y's agent, covering Y's reference and the
    /// byte, program-ordered before Y.
    pub(crate) fn l3_last_visibility(&self, moment: usize, y: usize, byte: u32) -> bool {
        self.is_visibility_moment(moment)
            && self.program_order(moment, at(y))
            && self.moment_covers(moment, self.rows[y], byte)
    }

    /// L3: the last element of an availability chain happens-before Y, which
    /// doesn't read, and makes available to a domain that both agents use.
    fn l3_reaches_write(&self, available: usize, x: usize, y: usize) -> bool {
        self.happens_before(available, at(y)) && self.common_domain(x, y, &[available])
    }

    /// L3: the last element of an availability chain happens-before the first
    /// of a visibility chain that ends before Y, and both reach a domain that
    /// both agents use.
    fn l3_reaches_visibility(&self, available: usize, x: usize, y: usize, byte: u32) -> bool {
        (0..self.moment_count()).any(|last| {
            self.l3_last_visibility(last, y, byte)
                && (0..self.moment_count()).any(|first| {
                    self.visibility_chain(first, last)
                        && self.happens_before(available, first)
                        && self.common_domain(x, y, &[available, first])
                })
        })
    }

    /// L3: a single availability moment for X, its scope shared by the agents.
    pub(crate) fn l3_availability(&self, moment: usize, x: usize, y: usize, byte: u32) -> bool {
        self.l3_first_availability(moment, x, byte) && self.shares_moments_scope(moment, x, y)
    }

    /// L3: a single visibility moment for Y, its scope shared by the agents.
    pub(crate) fn l3_visibility(&self, moment: usize, x: usize, y: usize, byte: u32) -> bool {
        self.l3_last_visibility(moment, y, byte) && self.shares_moments_scope(moment, x, y)
    }

    fn shares_moments_scope(&self, moment: usize, x: usize, y: usize) -> bool {
        let scope = self.row_at(moment).scope;
        self.m2_share(self.rows[x].agent, self.rows[y].agent, scope)
    }

    /// Two rows conflict if they share a byte and one writes.
    pub(crate) fn conflict(&self, first: usize, second: usize) -> bool {
        let (x, y) = (self.rows[first], self.rows[second]);
        x.shares_a_byte_with(y) && (x.writes() || y.writes())
    }

    /// The lowest shared byte at which two conflicting rows race: they aren't
    /// mutually-ordered, and it has no location order either way.
    fn race_byte(&self, first: usize, second: usize) -> Option<u32> {
        if !self.conflict(first, second) || self.mutually_ordered(first, second) {
            return None;
        }
        let row = self.rows[first];
        (row.first_byte()..row.end_byte()).find(|byte| {
            self.rows[second].has_byte(*byte)
                && !self.location_order(first, second, *byte)
                && !self.location_order(second, first, *byte)
        })
    }

    /// The first racing pair, by lower row and then higher, with its byte.
    pub(crate) fn first_race(&self) -> Option<(u16, u16, u16)> {
        for first in 0..self.row_count {
            for second in first + 1..self.row_count {
                if let Some(byte) = self.race_byte(first, second) {
                    return Some((first as u16, second as u16, byte as u16));
                }
            }
        }
        None
    }
}
