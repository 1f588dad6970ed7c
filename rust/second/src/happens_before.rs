//! M6 and M7: inter-thread order of each class set, and happens-before.

use crate::moments::{place_of_moment, row_of_moment, AT};
use crate::state::{moment_pair, State};

/// M6's direct step by synchronizes-with.
pub const SYNCHRONIZES_STEP: u8 = 1;
/// M6's direct step from a moment to a release row.
pub const RELEASE_STEP: u8 = 2;
/// M6's direct step from an acquire row to a moment.
pub const ACQUIRE_STEP: u8 = 3;

/// M6's direct step by system-synchronizes-with.
pub const SYSTEM_STEP: u8 = 4;

const STEPS: [u8; 4] = [SYNCHRONIZES_STEP, RELEASE_STEP, ACQUIRE_STEP, SYSTEM_STEP];

impl State {
    /// Whether a moment of the last admitted table happens before another.
    pub fn happens_before(&self, first: usize, second: usize) -> bool {
        first < self.moment_count()
            && second < self.moment_count()
            && self.happens_before[moment_pair(first, second)]
    }

    /// M6: whether one of the four direct steps leads from a moment to a
    /// moment for a class set.
    pub fn direct_step(&self, set: u8, step: u8, first: usize, second: usize) -> bool {
        if !self.moment_exists(first) || !self.moment_exists(second) {
            return false;
        }
        match step {
            SYNCHRONIZES_STEP => self.m6_synchronizes(set, first, second),
            RELEASE_STEP => self.m6_before_release(set, first, second),
            ACQUIRE_STEP => self.m6_after_acquire(set, first, second),
            SYSTEM_STEP => self.m6_system_synchronizes(first, second),
            _ => false,
        }
    }

    /// M6: synchronizes-with where both hold all of the set.
    fn m6_synchronizes(&self, set: u8, first: usize, second: usize) -> bool {
        place_of_moment(first) == AT
            && place_of_moment(second) == AT
            && self.synchronizes_with(row_of_moment(first), row_of_moment(second))
            && self.row_at(first).holds_all(set)
            && self.row_at(second).holds_all(set)
    }

    /// M6: a moment program-ordered before a release row holding all of the set.
    fn m6_before_release(&self, set: u8, moment: usize, release: usize) -> bool {
        place_of_moment(release) == AT
            && self.row_at(release).is_release()
            && self.row_at(release).holds_all(set)
            && self.program_order(moment, release)
            && self.m6_moment_fits(set, moment)
    }

    /// M6: an acquire row holding all of the set program-ordered before a moment.
    fn m6_after_acquire(&self, set: u8, acquire: usize, moment: usize) -> bool {
        place_of_moment(acquire) == AT
            && self.row_at(acquire).is_acquire()
            && self.row_at(acquire).holds_all(set)
            && self.program_order(acquire, moment)
            && self.m6_moment_fits(set, moment)
    }

    /// M6: the moment accesses a class in the set (an availability or
    /// visibility moment shares one with it), or is an atomic or barrier
    /// holding all of it.
    fn m6_moment_fits(&self, set: u8, moment: usize) -> bool {
        let row = self.row_at(moment);
        if place_of_moment(moment) != AT {
            return self.moment_classes(moment) & set != 0;
        }
        (row.is_access() && row.class_bit() & set != 0) || (!row.is_plain() && row.holds_all(set))
    }

    /// M7: program order, or inter-thread order for some class set; it isn't
    /// closed again.
    pub(crate) fn relate_happens_before(&mut self) {
        for first in 0..self.moment_count() {
            for second in 0..self.moment_count() {
                self.happens_before[moment_pair(first, second)] = self.program_order(first, second);
            }
        }
        for set in 1..=15 {
            self.m6_direct_steps(set);
            self.m6_transitive_closure();
            self.m7_add_inter_thread_order();
        }
    }

    fn m6_direct_steps(&mut self, set: u8) {
        for first in 0..self.moment_count() {
            for second in 0..self.moment_count() {
                self.inter_thread[moment_pair(first, second)] = STEPS
                    .iter()
                    .any(|step| self.direct_step(set, *step, first, second));
            }
        }
    }

    /// Warshall's closure, in place.
    fn m6_transitive_closure(&mut self) {
        let moments = self.moment_count();
        for middle in 0..moments {
            for first in 0..moments {
                if !self.inter_thread[moment_pair(first, middle)] {
                    continue;
                }
                for second in 0..moments {
                    if self.inter_thread[moment_pair(middle, second)] {
                        self.inter_thread[moment_pair(first, second)] = true;
                    }
                }
            }
        }
    }

    fn m7_add_inter_thread_order(&mut self) {
        for first in 0..self.moment_count() {
            for second in 0..self.moment_count() {
                if self.inter_thread[moment_pair(first, second)] {
                    self.happens_before[moment_pair(first, second)] = true;
                }
            }
        }
    }
}
