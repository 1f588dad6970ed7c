//! The table's bytes taken apart into agents and rows.

/// Source number for the initial value.
pub const INITIAL: u16 = 65535;
/// Source number for a blank.
pub const BLANK: u16 = 65534;

/// The version whose ranks are compared as they stand.
pub const PLAIN_RANKS: u8 = 1;
/// The version from which on ranks are counts that may have run out and begun
/// again.
pub const COUNTED_RANKS: u8 = 2;
/// The version that has host and queue agents, and dependencies.
pub const WITH_HOSTS: u8 = 3;

pub const HEADER_BYTES: usize = 8;
/// Bytes of an agent in versions 1 and 2.
pub const AGENT_BYTES: usize = 6;
/// Bytes of an agent whose sort is told.
pub const SORTED_AGENT_BYTES: usize = 8;
pub const ROW_BYTES: usize = 16;
/// Bytes of the count of dependencies.
pub const COUNT_BYTES: usize = 2;
pub const DEPENDENCY_BYTES: usize = 4;

/// Sorts of agents.
pub const SHADER: u16 = 0;
pub const HOST: u16 = 1;
pub const QUEUE: u16 = 2;

pub const PLAIN_READ: u8 = 0;
pub const PLAIN_WRITE: u8 = 1;
pub const ATOMIC_READ: u8 = 2;
pub const ATOMIC_WRITE: u8 = 3;
pub const ATOMIC_RMW: u8 = 4;
pub const BARRIER: u8 = 5;
pub const CONTROL_BARRIER: u8 = 6;
pub const AVAILABLE_TO_HOST: u8 = 7;
pub const AVAILABLE_TO_DEVICE: u8 = 8;
pub const VISIBLE_FROM_HOST: u8 = 9;
pub const VISIBLE_FROM_DEVICE: u8 = 10;
pub const HOST_TO_DEVICE: u8 = 11;
pub const DEVICE_TO_HOST: u8 = 12;

pub const RELAXED: u8 = 0;
pub const ACQUIRE: u8 = 1;
pub const RELEASE: u8 = 2;
pub const BOTH: u8 = 3;

pub const INVOCATION: u8 = 0;
pub const SUBGROUP: u8 = 1;
pub const WORKGROUP: u8 = 2;
pub const FAMILY: u8 = 3;
pub const DEVICE: u8 = 4;

pub const NON_PRIVATE: u8 = 1;
pub const MAKE_AVAILABLE: u8 = 2;
pub const MAKE_VISIBLE: u8 = 4;

/// One row, field by field in the table's order. A control barrier has its
/// execution scope in the place of the class, and its instance in that of the
/// start.
#[derive(Clone, Copy, Debug, Default, PartialEq, Eq)]
pub struct Row {
    pub kind: u8,
    pub agent: u8,
    pub order: u8,
    pub scope: u8,
    pub classes: u8,
    pub flags: u8,
    pub class: u8,
    pub length: u8,
    pub start: u16,
    pub reference: u16,
    pub source: u16,
    pub rank: u16,
}

impl Row {
    pub fn from_bytes(bytes: &[u8]) -> Row {
        Row {
            kind: bytes[0],
            agent: bytes[1],
            order: bytes[2],
            scope: bytes[3],
            classes: bytes[4],
            flags: bytes[5],
            class: bytes[6],
            length: bytes[7],
            start: two_bytes(bytes, 8),
            reference: two_bytes(bytes, 10),
            source: two_bytes(bytes, 12),
            rank: two_bytes(bytes, 14),
        }
    }

    pub fn is_plain(self) -> bool {
        matches!(self.kind, PLAIN_READ | PLAIN_WRITE)
    }

    pub fn is_atomic(self) -> bool {
        matches!(self.kind, ATOMIC_READ | ATOMIC_WRITE | ATOMIC_RMW)
    }

    /// Whether the row is a memory barrier; a control barrier is one as well.
    pub fn is_barrier(self) -> bool {
        matches!(self.kind, BARRIER | CONTROL_BARRIER)
    }

    pub fn is_control_barrier(self) -> bool {
        self.kind == CONTROL_BARRIER
    }

    /// Whether the row is an operation of a queue agent.
    pub fn is_queue_operation(self) -> bool {
        (AVAILABLE_TO_HOST..=DEVICE_TO_HOST).contains(&self.kind)
    }

    /// A control barrier's execution scope.
    pub fn execution_scope(self) -> u8 {
        self.class
    }

    /// A control barrier's instance number.
    pub fn instance(self) -> u16 {
        self.start
    }

    pub fn is_access(self) -> bool {
        self.is_plain() || self.is_atomic()
    }

    pub fn reads(self) -> bool {
        matches!(self.kind, PLAIN_READ | ATOMIC_READ | ATOMIC_RMW)
    }

    pub fn writes(self) -> bool {
        matches!(self.kind, PLAIN_WRITE | ATOMIC_WRITE | ATOMIC_RMW)
    }

    pub fn is_atomic_writer(self) -> bool {
        self.is_atomic() && self.writes()
    }

    pub fn is_atomic_reader(self) -> bool {
        self.is_atomic() && self.reads()
    }

    pub fn is_acquire(self) -> bool {
        matches!(self.order, ACQUIRE | BOTH)
    }

    pub fn is_release(self) -> bool {
        matches!(self.order, RELEASE | BOTH)
    }

    pub fn is_non_private(self) -> bool {
        self.flags & NON_PRIVATE != 0
    }

    pub fn makes_available(self) -> bool {
        self.flags & MAKE_AVAILABLE != 0
    }

    pub fn makes_visible(self) -> bool {
        self.flags & MAKE_VISIBLE != 0
    }

    /// The accessed class as a set of one.
    pub fn class_bit(self) -> u8 {
        1 << self.class
    }

    /// Whether the semantics classes contain the whole set.
    pub fn holds_all(self, set: u8) -> bool {
        self.classes & set == set
    }

    pub fn first_byte(self) -> u32 {
        u32::from(self.start)
    }

    /// The first byte that the row no longer covers.
    pub fn end_byte(self) -> u32 {
        u32::from(self.start) + u32::from(self.length)
    }

    pub fn has_byte(self, byte: u32) -> bool {
        self.first_byte() <= byte && byte < self.end_byte()
    }

    pub fn covers_all_bytes_of(self, other: Row) -> bool {
        self.first_byte() <= other.first_byte() && other.end_byte() <= self.end_byte()
    }

    pub fn shares_a_byte_with(self, other: Row) -> bool {
        (self.first_byte()..self.end_byte()).any(|byte| other.has_byte(byte))
    }
}

pub(crate) fn two_bytes(bytes: &[u8], at: usize) -> u16 {
    u16::from_be_bytes([bytes[at], bytes[at + 1]])
}

pub(crate) fn four_bytes(bytes: &[u8], at: usize) -> u32 {
    u32::from_be_bytes([bytes[at], bytes[at + 1], bytes[at + 2], bytes[at + 3]])
}

/// Bytes of one agent in a version.
pub fn agent_bytes(version: u8) -> usize {
    if version >= WITH_HOSTS {
        SORTED_AGENT_BYTES
    } else {
        AGENT_BYTES
    }
}

/// Family, workgroup and subgroup numbers of an agent.
pub fn agent_places(table: &[u8], agent: usize) -> [u16; 3] {
    let at = HEADER_BYTES + agent_bytes(table[4]) * agent;
    [
        two_bytes(table, at),
        two_bytes(table, at + 2),
        two_bytes(table, at + 4),
    ]
}

/// An agent's sort: its fourth number, and a shader where it has none.
pub fn agent_sort(table: &[u8], agent: usize) -> u16 {
    if table[4] < WITH_HOSTS {
        return SHADER;
    }
    two_bytes(table, HEADER_BYTES + SORTED_AGENT_BYTES * agent + 6)
}

pub fn row_of(table: &[u8], agent_count: usize, row: usize) -> Row {
    let at = HEADER_BYTES + agent_bytes(table[4]) * agent_count + ROW_BYTES * row;
    Row::from_bytes(&table[at..at + ROW_BYTES])
}

/// Where the count of dependencies stands, in the version that has them.
pub fn dependencies_at(agent_count: usize, row_count: usize) -> usize {
    HEADER_BYTES + SORTED_AGENT_BYTES * agent_count + ROW_BYTES * row_count
}

/// The numbered dependency of a table whose count stands at a place.
pub fn dependency_of(table: &[u8], count_at: usize, number: usize) -> [u16; 2] {
    let at = count_at + COUNT_BYTES + DEPENDENCY_BYTES * number;
    [two_bytes(table, at), two_bytes(table, at + 2)]
}
