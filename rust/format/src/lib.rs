//! The table's format: rows, kinds and limits. Beside it how bytes are written as
//! hex digits and answers as JSON.
//!
//! The second implementation has no part in this. It was written from the rules
//! alone and has its own rows, kinds and limits, so that a slip here is one that
//! it doesn't share.

mod hex;
mod json;
mod row;

pub use hex::{digits, Bad, Hex};
pub use json::{Object, Quoted};
pub use row::Row;

/// Source number for the initial value.
pub const INITIAL: u16 = 65535;
/// Source number for a blank, which a fill decides.
pub const BLANK: u16 = 65534;

/// Most rows of a table.
pub const MAX_ROWS: usize = 128;
/// Bytes of a row.
pub const ROW_BYTES: usize = 16;
/// Most agents of a table.
pub const MAX_AGENTS: usize = 32;
/// Most dependencies of a table of version 3.
pub const MAX_DEPENDENCIES: usize = 64;
/// Most bytes of a table: its header, agents, rows and dependencies.
pub const MAX_TABLE_BYTES: usize =
    8 + 8 * MAX_AGENTS + ROW_BYTES * MAX_ROWS + 2 + 4 * MAX_DEPENDENCIES;

/// Kinds of rows.
pub mod kind {
    pub const PLAIN_READ: u8 = 0;
    pub const PLAIN_WRITE: u8 = 1;
    pub const ATOMIC_READ: u8 = 2;
    pub const ATOMIC_WRITE: u8 = 3;
    pub const RMW: u8 = 4;
    pub const BARRIER: u8 = 5;
    pub const CONTROL_BARRIER: u8 = 6;
    pub const AVAILABLE_TO_HOST: u8 = 7;
    pub const AVAILABLE_TO_DEVICE: u8 = 8;
    pub const VISIBLE_FROM_HOST: u8 = 9;
    pub const VISIBLE_FROM_DEVICE: u8 = 10;
    pub const HOST_TO_DEVICE: u8 = 11;
    pub const DEVICE_TO_HOST: u8 = 12;
}

/// Sorts of agents.
pub mod sort {
    pub const SHADER: u16 = 0;
    pub const HOST: u16 = 1;
    pub const QUEUE: u16 = 2;
}

/// Memory orders.
pub mod order {
    pub const RELAXED: u8 = 0;
    pub const ACQUIRE: u8 = 1;
    pub const RELEASE: u8 = 2;
    pub const BOTH: u8 = 3;
}

/// Scopes.
pub mod scope {
    pub const INVOCATION: u8 = 0;
    pub const SUBGROUP: u8 = 1;
    pub const WORKGROUP: u8 = 2;
    pub const FAMILY: u8 = 3;
    pub const DEVICE: u8 = 4;
}

/// Sets of semantics classes, to be added up.
pub mod classes {
    pub const UNIFORM: u8 = 1;
    pub const WORKGROUP: u8 = 2;
    pub const IMAGE: u8 = 4;
    pub const OUTPUT: u8 = 8;
}

/// Flags, to be added up.
pub mod flags {
    pub const NON_PRIVATE: u8 = 1;
    pub const MAKE_AVAILABLE: u8 = 2;
    pub const MAKE_VISIBLE: u8 = 4;
}
