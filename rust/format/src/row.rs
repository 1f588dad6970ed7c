//! A row as values and as bytes.

use crate::{kind, ROW_BYTES};

/// A row as values: the fields of a table's row, in its order.
#[derive(Clone, Copy, Debug, Default, PartialEq, Eq)]
pub struct Row {
    /// What the agent did: 0 a plain read, and so on.
    pub kind: u8,
    /// The agent's number.
    pub agent: u8,
    /// 0 relaxed, 1 acquire, 2 release, 3 both.
    pub order: u8,
    /// 0 invocation, 1 subgroup, 2 workgroup, 3 queue family, 4 device.
    pub scope: u8,
    /// Semantics classes: the sum of 1 Uniform, 2 Workgroup, 4 Image, 8 Output.
    pub classes: u8,
    /// The sum of 1 non-private, 2 make available, 4 make visible.
    pub flags: u8,
    /// The class accessed, 0 to 3; a control barrier's execution scope.
    pub class: u8,
    /// How many bytes are accessed.
    pub length: u8,
    /// The first byte accessed; a control barrier's instance number.
    pub start: u16,
    /// By which variable or pointer the memory is reached.
    pub reference: u16,
    /// The row that was read, [`INITIAL`](crate::INITIAL) or [`BLANK`](crate::BLANK).
    pub source: u16,
    /// An atomic writer's place in the modification order of its location.
    pub rank: u16,
}

impl Row {
    /// The row of sixteen bytes.
    pub fn from_bytes(bytes: [u8; ROW_BYTES]) -> Row {
        let pair = |at: usize| u16::from_be_bytes([bytes[at], bytes[at + 1]]);
        Row {
            kind: bytes[0],
            agent: bytes[1],
            order: bytes[2],
            scope: bytes[3],
            classes: bytes[4],
            flags: bytes[5],
            class: bytes[6],
            length: bytes[7],
            start: pair(8),
            reference: pair(10),
            source: pair(12),
            rank: pair(14),
        }
    }

    /// The row's sixteen bytes.
    pub fn bytes(self) -> [u8; ROW_BYTES] {
        let [kind, agent, order, scope] = [self.kind, self.agent, self.order, self.scope];
        let mut bytes = [0; ROW_BYTES];
        bytes[..4].copy_from_slice(&[kind, agent, order, scope]);
        bytes[4..8].copy_from_slice(&[self.classes, self.flags, self.class, self.length]);
        let numbers = [self.start, self.reference, self.source, self.rank];
        for (place, number) in numbers.into_iter().enumerate() {
            bytes[8 + 2 * place..][..2].copy_from_slice(&number.to_be_bytes());
        }
        bytes
    }

    /// Whether it reaches memory.
    pub fn is_access(self) -> bool {
        self.kind < kind::BARRIER
    }

    /// Whether agents meet in it.
    pub fn is_control_barrier(self) -> bool {
        self.kind == kind::CONTROL_BARRIER
    }

    /// Whether it is an operation of a queue agent.
    pub fn is_queue_operation(self) -> bool {
        (kind::AVAILABLE_TO_HOST..=kind::DEVICE_TO_HOST).contains(&self.kind)
    }

    /// Whether two rows are control barriers of one instance.
    pub fn meets(self, other: Row) -> bool {
        self.is_control_barrier() && other.is_control_barrier() && self.start == other.start
    }

    /// Whether it is a plain access.
    pub fn is_plain(self) -> bool {
        self.kind < kind::ATOMIC_READ
    }

    /// Whether it is an atomic.
    pub fn is_atomic(self) -> bool {
        self.is_access() && !self.is_plain()
    }

    /// Whether the row's bytes may be those of an atomic.
    pub fn has_atomic_bytes(self) -> bool {
        matches!(self.length, 4 | 8) && self.start.is_multiple_of(u16::from(self.length))
    }

    /// Whether it reads.
    pub fn reads(self) -> bool {
        matches!(self.kind, kind::PLAIN_READ | kind::ATOMIC_READ | kind::RMW)
    }

    /// Whether it writes.
    pub fn writes(self) -> bool {
        matches!(
            self.kind,
            kind::PLAIN_WRITE | kind::ATOMIC_WRITE | kind::RMW
        )
    }

    /// Whether it is an atomic that writes.
    pub fn is_atomic_writer(self) -> bool {
        matches!(self.kind, kind::ATOMIC_WRITE | kind::RMW)
    }

    /// Whether two rows are atomic writers of one place.
    pub fn ranks_with(self, other: Row) -> bool {
        self.is_atomic_writer()
            && other.is_atomic_writer()
            && (self.start, self.length, self.reference)
                == (other.start, other.length, other.reference)
    }

    /// The first byte that the row no longer covers.
    pub fn end(self) -> u32 {
        u32::from(self.start) + u32::from(self.length)
    }

    /// Whether the other's bytes are among its own.
    pub fn covers(self, other: Row) -> bool {
        self.start <= other.start && other.end() <= self.end()
    }

    /// Whether two accesses share a byte.
    pub fn overlaps(self, other: Row) -> bool {
        self.is_access()
            && other.is_access()
            && u32::from(self.start) < other.end()
            && u32::from(other.start) < self.end()
    }
}
