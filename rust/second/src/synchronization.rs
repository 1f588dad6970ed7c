//! M3, M4 and M5: mutual order, release sequences and synchronizes-with.

use crate::moments::at;
use crate::state::{row_pair, State};
use crate::table::{ATOMIC_RMW, PLAIN_RANKS};

impl State {
    /// Whether two rows of the last admitted table are mutually-ordered.
    pub fn mutually_ordered(&self, first: usize, second: usize) -> bool {
        first < self.row_count
            && second < self.row_count
            && self.mutually_ordered[row_pair(first, second)]
    }

    /// Whether a row of the last admitted table synchronizes with another.
    pub fn synchronizes_with(&self, release: usize, acquire: usize) -> bool {
        release < self.row_count
            && acquire < self.row_count
            && self.synchronizes_with[row_pair(release, acquire)]
    }

    pub(crate) fn relate_mutually_ordered(&mut self) {
        for first in 0..self.row_count {
            for second in 0..self.row_count {
                self.mutually_ordered[row_pair(first, second)] =
                    self.m3_mutually_ordered(first, second);
            }
        }
    }

    pub(crate) fn relate_synchronizes_with(&mut self) {
        for release in 0..self.row_count {
            for acquire in 0..self.row_count {
                self.synchronizes_with[row_pair(release, acquire)] =
                    self.m5_synchronizes_with(release, acquire);
            }
        }
    }

    /// M3: two different atomic rows of one place whose agents share both
    /// rows' scopes.
    pub(crate) fn m3_mutually_ordered(&self, first: usize, second: usize) -> bool {
        let (x, y) = (self.rows[first], self.rows[second]);
        first != second
            && x.is_atomic()
            && y.is_atomic()
            && x.start == y.start
            && x.length == y.length
            && x.reference == y.reference
            && self.share_both_scopes(first, second)
    }

    /// M3: scoped modification order, mutually-ordered writers by rank.
    pub(crate) fn m3_modification_order(&self, first: usize, second: usize) -> bool {
        let (x, y) = (self.rows[first], self.rows[second]);
        self.mutually_ordered(first, second)
            && x.writes()
            && y.writes()
            && self.m3_later(y.rank, x.rank)
    }

    /// M3: whether a rank is later than another: greater in version 1; where
    /// ranks are counted, 1 to 32,767 counts further on, modulo 65,536.
    pub(crate) fn m3_later(&self, rank: u16, other: u16) -> bool {
        if self.version == PLAIN_RANKS {
            rank > other
        } else {
            (1..=32767).contains(&rank.wrapping_sub(other))
        }
    }

    /// M4: whether a row is in the release sequence headed by `head`. A
    /// follower is in only if every follower of its rank or an earlier one
    /// qualifies.
    pub(crate) fn m4_release_sequence(&self, head: usize, member: usize) -> bool {
        if !self.rows[head].is_atomic_writer() {
            return false;
        }
        member == head
            || (self.m3_modification_order(head, member)
                && (0..self.row_count).all(|follower| {
                    !self.m3_modification_order(head, follower)
                        || self.m3_later(self.rows[follower].rank, self.rows[member].rank)
                        || self.m4_qualifies(follower)
                }))
    }

    /// M4: after the head only an RMW goes on the sequence, by any agent.
    fn m4_qualifies(&self, follower: usize) -> bool {
        self.rows[follower].kind == ATOMIC_RMW
    }

    /// The row that a reader reads from; none for the initial value and for
    /// a blank.
    pub(crate) fn source_row(&self, reader: usize) -> Option<usize> {
        let source = usize::from(self.rows[reader].source);
        (self.rows[reader].reads() && source < self.row_count).then_some(source)
    }

    fn reads_from_sequence(&self, reader: usize, head: usize) -> bool {
        self.source_row(reader)
            .is_some_and(|source| self.m4_release_sequence(head, source))
    }

    /// M5: a release row synchronizes with an acquire row by one of five cases.
    fn m5_synchronizes_with(&self, a: usize, b: usize) -> bool {
        if a == b || !self.rows[a].is_release() || !self.rows[b].is_acquire() {
            return false;
        }
        match (self.rows[a].is_barrier(), self.rows[b].is_barrier()) {
            (false, false) => self.m5_two_atomics(a, b),
            (true, false) => self.m5_barrier_and_atomic(a, b),
            (false, true) => self.m5_atomic_and_barrier(a, b),
            (true, true) => self.m5_two_barriers(a, b) || self.m5_control_barrier(a, b),
        }
    }

    /// M5, release atomic A and acquire atomic B: mutually-ordered, and B
    /// reads from A's sequence.
    fn m5_two_atomics(&self, a: usize, b: usize) -> bool {
        self.mutually_ordered(a, b) && self.reads_from_sequence(b, a)
    }

    /// M5, release barrier A and acquire atomic B, through a writer X after A.
    fn m5_barrier_and_atomic(&self, a: usize, b: usize) -> bool {
        self.share_both_scopes(a, b)
            && (0..self.row_count).any(|x| {
                self.m5_writer_after(a, x)
                    && self.mutually_ordered(x, b)
                    && self.reads_from_sequence(b, x)
            })
    }

    /// M5, release atomic A and acquire barrier B, through a reader X before B.
    fn m5_atomic_and_barrier(&self, a: usize, b: usize) -> bool {
        self.share_both_scopes(a, b)
            && (0..self.row_count).any(|x| {
                self.m5_reader_before(x, b)
                    && self.mutually_ordered(a, x)
                    && self.reads_from_sequence(x, a)
            })
    }

    /// M5, two barriers, through a writer X after A and a reader Y before B.
    fn m5_two_barriers(&self, a: usize, b: usize) -> bool {
        self.share_both_scopes(a, b)
            && (0..self.row_count).any(|x| {
                self.m5_writer_after(a, x)
                    && (0..self.row_count).any(|y| {
                        self.m5_reader_before(y, b)
                            && self.mutually_ordered(x, y)
                            && self.reads_from_sequence(y, x)
                    })
            })
    }

    /// M5, two barriers and a control barrier C. Two rows of one instance are
    /// C for their agents, and A and B may be those rows themselves.
    fn m5_control_barrier(&self, a: usize, b: usize) -> bool {
        self.share_both_scopes(a, b) && self.control_barrier_between(a, b).is_some()
    }

    /// Two rows of one instance, the first at A or after it, the second at B
    /// or before it, whose execution scope the agents of A and B share.
    pub(crate) fn control_barrier_between(&self, a: usize, b: usize) -> Option<(usize, usize)> {
        let is_after_a = |c: usize| c == a || self.program_order(at(a), at(c));
        let is_before_b = |d: usize| d == b || self.program_order(at(d), at(b));
        let (from, to) = (self.rows[a].agent, self.rows[b].agent);
        let firsts = (0..self.row_count).filter(|c| is_after_a(*c));
        let mut pairs = firsts.flat_map(|c| (0..self.row_count).map(move |d| (c, d)));
        pairs.find(|(c, d)| {
            c != d
                && self.of_one_instance(*c, *d)
                && is_before_b(*d)
                && self.m2_share(from, to, self.rows[*c].execution_scope())
        })
    }

    /// Whether two rows are control barriers of one instance.
    pub(crate) fn of_one_instance(&self, first: usize, second: usize) -> bool {
        let (first, second) = (self.rows[first], self.rows[second]);
        first.is_control_barrier()
            && second.is_control_barrier()
            && first.instance() == second.instance()
    }

    /// M5: X is an atomic writer program-ordered after barrier A, its class
    /// in A's semantics.
    fn m5_writer_after(&self, a: usize, x: usize) -> bool {
        self.rows[x].is_atomic_writer()
            && self.program_order(at(a), at(x))
            && self.rows[a].holds_all(self.rows[x].class_bit())
    }

    /// M5: Y is an atomic reader program-ordered before barrier B, its class
    /// in B's semantics.
    fn m5_reader_before(&self, y: usize, b: usize) -> bool {
        self.rows[y].is_atomic_reader()
            && self.program_order(at(y), at(b))
            && self.rows[b].holds_all(self.rows[y].class_bit())
    }
}
