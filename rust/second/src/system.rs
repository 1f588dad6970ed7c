//! Dependencies, which are system-synchronizes-with, and the domains of host
//! and device: the first case of inter-thread order, the read case of location
//! order, and its final bullet.

use crate::moments::{at, place_of_moment, row_of_moment, AT};
use crate::state::{row_pair, State};
use crate::table::*;

/// The memory domain that an agent's accesses use.
#[derive(Clone, Copy, PartialEq, Eq)]
enum Domain {
    Host,
    Device,
}

impl Domain {
    /// Kind of an availability operation to the domain.
    fn availability(self) -> u8 {
        match self {
            Domain::Host => AVAILABLE_TO_HOST,
            Domain::Device => AVAILABLE_TO_DEVICE,
        }
    }

    /// Kind of a visibility operation from the domain.
    fn visibility(self) -> u8 {
        match self {
            Domain::Host => VISIBLE_FROM_HOST,
            Domain::Device => VISIBLE_FROM_DEVICE,
        }
    }

    /// Kind of a domain operation from the domain to the other one.
    fn leaving(self) -> u8 {
        match self {
            Domain::Host => HOST_TO_DEVICE,
            Domain::Device => DEVICE_TO_HOST,
        }
    }
}

/// The rows by which a write is carried to another row through the domains.
#[derive(Clone, Copy, Debug, PartialEq, Eq)]
pub struct DomainSteps {
    pub availability: usize,
    /// None where one domain is the domain of both.
    pub domain_operation: Option<usize>,
    /// None where the row doesn't read.
    pub visibility: Option<usize>,
}

impl State {
    pub(crate) fn relate_system_synchronizes(&mut self) {
        for first in 0..self.row_count {
            for second in 0..self.row_count {
                let pair = row_pair(first, second);
                let dependency = [first as u16, second as u16];
                self.depends[pair] = self.dependencies.contains(&dependency);
                self.system_synchronizes[pair] = self.depends[pair];
            }
        }
        // Warshall's closure, in place.
        for middle in 0..self.row_count {
            for first in 0..self.row_count {
                if !self.system_synchronizes[row_pair(first, middle)] {
                    continue;
                }
                for second in 0..self.row_count {
                    if self.system_synchronizes[row_pair(middle, second)] {
                        self.system_synchronizes[row_pair(first, second)] = true;
                    }
                }
            }
        }
    }

    /// M6, the fourth case: a dependency between rows, for any class set.
    pub(crate) fn m6_system_synchronizes(&self, first: usize, second: usize) -> bool {
        place_of_moment(first) == AT
            && place_of_moment(second) == AT
            && self.depends[row_pair(row_of_moment(first), row_of_moment(second))]
    }

    /// Location order, the read case: X reads and doesn't write, and X
    /// transitively system-synchronizes-with Y.
    pub(crate) fn read_system_synchronizes(&self, x: usize, y: usize) -> bool {
        self.rows[x].reads() && !self.rows[x].writes() && self.system_synchronizes[row_pair(x, y)]
    }

    /// Which domain an access's agent uses.
    fn domain_of(&self, row: usize) -> Domain {
        if self.sort_of(self.rows[row].agent) == HOST {
            Domain::Host
        } else {
            Domain::Device
        }
    }

    /// Location order, the final bullet: X writes; it happens-before an
    /// availability operation to its domain, that before a domain operation to
    /// Y's domain if that is the other one, that before Y, or, if Y reads,
    /// before a visibility operation from Y's domain that happens-before Y.
    /// An RMW writes as X and reads as Y.
    pub(crate) fn through_domains(&self, x: usize, y: usize) -> Option<DomainSteps> {
        if !self.rows[x].writes() || !self.rows[y].is_access() {
            return None;
        }
        let kind = self.domain_of(x).availability();
        self.operations(kind).find_map(|availability| {
            let steps = self.rest_of_the_way(x, y, availability);
            steps.filter(|_| self.row_before(x, availability))
        })
    }

    /// The rest of the way, from an availability operation.
    fn rest_of_the_way(&self, x: usize, y: usize, availability: usize) -> Option<DomainSteps> {
        let (from, to) = (self.domain_of(x), self.domain_of(y));
        let steps = |domain_operation, visibility| DomainSteps {
            availability,
            domain_operation,
            visibility,
        };
        if from == to {
            let visibility = self.to_row(availability, y)?;
            return Some(steps(None, visibility));
        }
        self.operations(from.leaving()).find_map(|operation| {
            let is_reached = self.row_before(availability, operation);
            let visibility = is_reached.then(|| self.to_row(operation, y)).flatten()?;
            Some(steps(Some(operation), visibility))
        })
    }

    /// The last of the way: to Y itself, which says none, or by a visibility
    /// operation, which it says.
    fn to_row(&self, from: usize, y: usize) -> Option<Option<usize>> {
        if !self.rows[y].reads() {
            return self.row_before(from, y).then_some(None);
        }
        let kind = self.domain_of(y).visibility();
        let mut all = self.operations(kind);
        let found = all.find(|visibility| {
            self.row_before(from, *visibility) && self.row_before(*visibility, y)
        });
        found.map(Some)
    }

    /// The queue operations of a kind.
    fn operations(&self, kind: u8) -> impl Iterator<Item = usize> + '_ {
        (0..self.row_count).filter(move |row| self.rows[*row].kind == kind)
    }

    /// Happens-before between two rows themselves.
    fn row_before(&self, first: usize, second: usize) -> bool {
        self.happens_before(at(first), at(second))
    }
}
