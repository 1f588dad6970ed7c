//! The C boundary: the only unsafe code. `include/stramashly.h` says what
//! these functions do; `tests/boundary.rs` holds its declarations and those
//! here to the library's source.
//!
//! A table in one piece is a table in two of which the second is empty, which is
//! proved (`pieces`), so that of such functions only those of two are called.

mod derivation;
mod writer;

pub use derivation::{accepts_in, derive_in};
pub use writer::{open_in, read_in, row_in, row_of_pieces, write_in};

use crate::answer::Packed;

/// A C function that judges a table in lent buffers: its pieces, the switch for
/// chains, the work area, the cycle or source buffer.
type Judges = unsafe extern "C" fn(
    first: *const u8,
    first_len: usize,
    second: *const u8,
    second_len: usize,
    chains: u8,
    work: *mut u64,
    work_len: usize,
    numbers: *mut u16,
    numbers_len: usize,
) -> u64;

/// The same by the flags engine, of one piece.
type JudgesByFlags = unsafe extern "C" fn(
    table: *const u8,
    table_len: usize,
    chains: u8,
    work: *mut u64,
    work_len: usize,
    numbers: *mut u16,
    numbers_len: usize,
) -> u64;

mod linked {
    unsafe extern "C" {
        pub fn stramashly_check2(
            first: *const u8,
            first_len: usize,
            second: *const u8,
            second_len: usize,
            chains: u8,
            work: *mut u64,
            work_len: usize,
            cycle: *mut u16,
            cycle_len: usize,
        ) -> u64;

        pub fn stramashly_fill2(
            first: *const u8,
            first_len: usize,
            second: *const u8,
            second_len: usize,
            chains: u8,
            work: *mut u64,
            work_len: usize,
            sources: *mut u16,
            sources_len: usize,
        ) -> u64;

        pub fn stramashly_report2(
            first: *const u8,
            first_len: usize,
            second: *const u8,
            second_len: usize,
            chains: u8,
            work: *mut u64,
            work_len: usize,
            cycle: *mut u16,
            cycle_len: usize,
            share: *mut f64,
        ) -> u64;

        pub fn stramashly_check_by_flags(
            table: *const u8,
            table_len: usize,
            chains: u8,
            work: *mut u64,
            work_len: usize,
            cycle: *mut u16,
            cycle_len: usize,
        ) -> u64;

        pub fn stramashly_fill_by_flags(
            table: *const u8,
            table_len: usize,
            chains: u8,
            work: *mut u64,
            work_len: usize,
            sources: *mut u16,
            sources_len: usize,
        ) -> u64;
    }
}

/// A table in one piece or in two: the first an ordinary table, the second only
/// rows, to be added after its rows.
#[derive(Clone, Copy, Debug, PartialEq, Eq)]
pub struct Pieces<'a>(pub [&'a [u8]; 2]);

impl<'a, T: AsRef<[u8]> + ?Sized> From<&'a T> for Pieces<'a> {
    fn from(table: &'a T) -> Pieces<'a> {
        Pieces([table.as_ref(), &[]])
    }
}

impl<'a> From<[&'a [u8]; 2]> for Pieces<'a> {
    fn from(pieces: [&'a [u8]; 2]) -> Pieces<'a> {
        Pieces(pieces)
    }
}

/// What a function of the archive answers.
fn ask(
    function: Judges,
    chains: bool,
    Pieces([first, second]): Pieces,
    work: &mut [u64],
    numbers: &mut [u16],
) -> Packed {
    // Sound: each pointer goes with its slice's length, and slices that are
    // borrowed for writing overlap no other.
    Packed(unsafe {
        function(
            first.as_ptr(),
            first.len(),
            second.as_ptr(),
            second.len(),
            u8::from(chains),
            work.as_mut_ptr(),
            work.len(),
            numbers.as_mut_ptr(),
            numbers.len(),
        )
    })
}

/// Checks a table of a device that has chains or not, in lent buffers of any
/// length; too short ones are refusal 11.
pub fn check_in(chains: bool, pieces: Pieces, work: &mut [u64], cycle: &mut [u16]) -> Packed {
    ask(linked::stramashly_check2, chains, pieces, work, cycle)
}

/// Fills a table of a device that has chains or not, in lent buffers of any
/// length; too short ones are refusal 11.
pub fn fill_in(chains: bool, pieces: Pieces, work: &mut [u64], sources: &mut [u16]) -> Packed {
    ask(linked::stramashly_fill2, chains, pieces, work, sources)
}

/// Counts a table's conflicting pairs in lent buffers of any length; too short
/// ones are refusal 11. Only beside a report is the share written.
pub fn report_in(
    chains: bool,
    Pieces([first, second]): Pieces,
    work: &mut [u64],
    cycle: &mut [u16],
    share: &mut f64,
) -> Packed {
    // Sound as in `ask`; the share is a number of its own.
    Packed(unsafe {
        linked::stramashly_report2(
            first.as_ptr(),
            first.len(),
            second.as_ptr(),
            second.len(),
            u8::from(chains),
            work.as_mut_ptr(),
            work.len(),
            cycle.as_mut_ptr(),
            cycle.len(),
            share,
        )
    })
}

fn ask_by_flags(
    function: JudgesByFlags,
    chains: bool,
    table: &[u8],
    work: &mut [u64],
    numbers: &mut [u16],
) -> Packed {
    // Sound as in `ask`.
    Packed(unsafe {
        function(
            table.as_ptr(),
            table.len(),
            u8::from(chains),
            work.as_mut_ptr(),
            work.len(),
            numbers.as_mut_ptr(),
            numbers.len(),
        )
    })
}

/// Checks a table by the flags engine, which has one flag for each two moments.
pub fn check_by_flags(chains: bool, table: &[u8], work: &mut [u64], cycle: &mut [u16]) -> Packed {
    let function = linked::stramashly_check_by_flags;
    ask_by_flags(function, chains, table, work, cycle)
}

/// Fills a table by the flags engine.
pub fn fill_by_flags(chains: bool, table: &[u8], work: &mut [u64], sources: &mut [u16]) -> Packed {
    let function = linked::stramashly_fill_by_flags;
    ask_by_flags(function, chains, table, work, sources)
}
