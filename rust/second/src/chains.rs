//! Availability chains and visibility chains. With the switch off a chain has
//! one element, so that L3 is stated once for both settings.

use crate::moments::row_of_moment;
use crate::state::{moment_pair, State};
use crate::table::{DEVICE, SUBGROUP};

/// Whether the device has availability and visibility chains.
#[derive(Clone, Copy, Debug, PartialEq, Eq)]
pub enum Chains {
    Off,
    On,
}

impl State {
    /// Whether an allowed availability chain begins at a moment and ends at a
    /// moment; it may be one and the same.
    pub fn availability_chain(&self, first: usize, last: usize) -> bool {
        first < self.moment_count()
            && last < self.moment_count()
            && self.availability_chains[moment_pair(first, last)]
    }

    /// Whether an allowed visibility chain begins at a moment and ends at a
    /// moment; it may be one and the same.
    pub fn visibility_chain(&self, first: usize, last: usize) -> bool {
        first < self.moment_count()
            && last < self.moment_count()
            && self.visibility_chains[moment_pair(first, last)]
    }

    pub(crate) fn relate_chains(&mut self) {
        let moments = self.moment_count();
        for first in 0..moments {
            for last in 0..moments {
                let pair = moment_pair(first, last);
                self.availability_chains[pair] = self.is_availability_moment(first)
                    && (first == last || self.availability_goes_on(first, last));
                self.visibility_chains[pair] = self.is_visibility_moment(first)
                    && (first == last || self.visibility_goes_on(first, last));
            }
        }
        close(&mut self.availability_chains[..], moments);
        close(&mut self.visibility_chains[..], moments);
    }

    /// Whether one availability moment may follow another in a chain: its
    /// domain is broader, its agent is in the scope instance of the one
    /// before, and that happens-before it.
    pub fn availability_goes_on(&self, element: usize, next: usize) -> bool {
        let (row, next_row) = (self.row_at(element), self.row_at(next));
        self.chains == Chains::On
            && self.is_availability_moment(element)
            && self.is_availability_moment(next)
            && row.scope < next_row.scope
            && self.m2_share(row.agent, next_row.agent, row.scope)
            && self.happens_before(element, next)
    }

    /// Whether one visibility moment may follow another in a chain: its domain
    /// is narrower, the agent of the one before is in its scope instance, and
    /// that happens-before it.
    pub fn visibility_goes_on(&self, element: usize, next: usize) -> bool {
        let (row, next_row) = (self.row_at(element), self.row_at(next));
        self.chains == Chains::On
            && self.is_visibility_moment(element)
            && self.is_visibility_moment(next)
            && row.scope > next_row.scope
            && self.m2_share(row.agent, next_row.agent, next_row.scope)
            && self.happens_before(element, next)
    }

    /// A domain that both rows' agents use, and that the elements reach: an
    /// instance of a scope no broader than theirs that holds all the agents.
    pub(crate) fn common_domain(&self, x: usize, y: usize, elements: &[usize]) -> bool {
        let agent = self.rows[x].agent;
        (SUBGROUP..=DEVICE).any(|scope| {
            self.m2_share(agent, self.rows[y].agent, scope)
                && elements.iter().all(|element| {
                    let row = self.rows[row_of_moment(*element)];
                    scope <= row.scope && self.m2_share(agent, row.agent, scope)
                })
        })
    }
}

/// Warshall's closure of a relation between moments, in place.
fn close(relation: &mut [bool], moments: usize) {
    for middle in 0..moments {
        for first in 0..moments {
            if !relation[moment_pair(first, middle)] {
                continue;
            }
            for last in 0..moments {
                if relation[moment_pair(middle, last)] {
                    relation[moment_pair(first, last)] = true;
                }
            }
        }
    }
}
