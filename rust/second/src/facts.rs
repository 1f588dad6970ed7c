//! The rules one by one, for those who put an answer into words. Each is
//! asked of the last admitted table; a row that it doesn't have has no facts.

use crate::state::{row_pair, State};
use crate::system::DomainSteps;
use crate::table::Row;

impl State {
    /// Rows of the last admitted table, none after a refusal.
    pub fn rows(&self) -> &[Row] {
        &self.rows[..self.row_count]
    }

    fn are_rows(&self, first: usize, second: usize) -> bool {
        first < self.row_count && second < self.row_count
    }

    /// M1: program order of two moments.
    pub fn in_program_order(&self, first: usize, second: usize) -> bool {
        self.program_order(first, second)
    }

    /// M2: whether two agents share a scope.
    pub fn share_scope(&self, first: u8, second: u8, scope: u8) -> bool {
        self.m2_share(first, second, scope)
    }

    /// M3: scoped modification order of two rows.
    pub fn modification_order(&self, first: usize, second: usize) -> bool {
        self.are_rows(first, second) && self.m3_modification_order(first, second)
    }

    /// M4: whether a row is in the release sequence that another heads.
    pub fn in_release_sequence(&self, head: usize, member: usize) -> bool {
        self.are_rows(head, member) && self.m4_release_sequence(head, member)
    }

    /// M5: the two rows of one instance by which a release barrier and an
    /// acquire barrier synchronize, the first at the release or after it, the
    /// second at the acquire or before it.
    pub fn control_barrier(&self, release: usize, acquire: usize) -> Option<(usize, usize)> {
        if !self.synchronizes_with(release, acquire) {
            return None;
        }
        let barriers = self.rows[release].is_barrier() && self.rows[acquire].is_barrier();
        barriers
            .then(|| self.control_barrier_between(release, acquire))
            .flatten()
    }

    /// The row that a row reads from; none for the initial value, a blank and
    /// a row that doesn't read.
    pub fn read_from(&self, reader: usize) -> Option<usize> {
        self.rows().get(reader).and(self.source_row(reader))
    }

    /// Whether two different rows conflict.
    pub fn conflicting(&self, first: usize, second: usize) -> bool {
        first != second && self.are_rows(first, second) && self.conflict(first, second)
    }

    /// Whether two rows race at a byte.
    pub fn races_at(&self, first: usize, second: usize, byte: u32) -> bool {
        self.conflicting(first, second)
            && self.rows[first].has_byte(byte)
            && self.rows[second].has_byte(byte)
            && !self.mutually_ordered(first, second)
            && !self.location_order(first, second, byte)
            && !self.location_order(second, first, byte)
    }

    /// Which of L1, L2 and L3 order a row before another at a byte of both.
    pub fn rules_at(&self, first: usize, second: usize, byte: u32) -> [bool; 3] {
        if !self.location_order(first, second, byte) {
            return [false; 3];
        }
        [
            self.l1(first, second),
            self.l2(first, second),
            self.l3(first, second, byte),
        ]
    }

    /// Whether the read case of system synchronization, and the steps through
    /// the domains, order a row before another that shares a byte with it.
    pub fn system_rules(&self, first: usize, second: usize) -> [bool; 2] {
        if first == second || !self.are_rows(first, second) {
            return [false; 2];
        }
        let share = self.rows[first].shares_a_byte_with(self.rows[second]);
        [
            share && self.read_system_synchronizes(first, second),
            share && self.through_domains(first, second).is_some(),
        ]
    }

    /// The availability, domain and visibility operations by which a write
    /// is ordered before a row through the domains.
    pub fn domain_steps(&self, first: usize, second: usize) -> Option<DomainSteps> {
        let [_, holds] = self.system_rules(first, second);
        holds.then(|| self.through_domains(first, second)).flatten()
    }

    /// Whether a dependency joins two rows.
    pub fn depends(&self, first: usize, second: usize) -> bool {
        self.are_rows(first, second) && self.depends[row_pair(first, second)]
    }

    /// An agent's sort: shader, host or queue.
    pub fn agent_sort(&self, agent: u8) -> u16 {
        self.sort_of(agent)
    }

    /// The dependencies of the last admitted table.
    pub fn dependencies(&self) -> &[[u16; 2]] {
        if self.row_count == 0 {
            return &[];
        }
        &self.dependencies
    }

    /// L3: whether a moment may begin an availability chain for a row's byte.
    pub fn begins_availability(&self, moment: usize, x: usize, byte: u32) -> bool {
        x < self.row_count && self.l3_first_availability(moment, x, byte)
    }

    /// L3: whether a moment may end a visibility chain for a row's byte.
    pub fn ends_visibility(&self, moment: usize, y: usize, byte: u32) -> bool {
        y < self.row_count && self.l3_last_visibility(moment, y, byte)
    }

    /// L3: whether a moment makes the byte of a row available to another's agent.
    pub fn makes_available(&self, moment: usize, x: usize, y: usize, byte: u32) -> bool {
        self.are_rows(x, y) && self.l3_availability(moment, x, y, byte)
    }

    /// L3: whether a moment makes a row's byte visible to another row.
    pub fn makes_visible(&self, moment: usize, x: usize, y: usize, byte: u32) -> bool {
        self.are_rows(x, y) && self.l3_visibility(moment, x, y, byte)
    }
}
