//! The C boundary: a table written, read back, and stepped through.

use super::Pieces;
use crate::answer::{foreign, Code, Packed};
use crate::ROW_BYTES;

mod linked {
    unsafe extern "C" {
        pub fn stramashly_write(
            version: u8,
            places: *const u16,
            places_len: usize,
            rows: *const u8,
            rows_len: usize,
            dependencies: *const u16,
            dependencies_len: usize,
            out: *mut u8,
            out_len: usize,
        ) -> u64;

        pub fn stramashly_read(
            table: *const u8,
            table_len: usize,
            places: *mut u16,
            places_len: usize,
            rows: *mut u8,
            rows_len: usize,
            dependencies: *mut u16,
            dependencies_len: usize,
        ) -> u64;

        pub fn stramashly_open(table: *const u8, table_len: usize) -> u64;

        pub fn stramashly_row(
            table: *const u8,
            table_len: usize,
            at: u16,
            row: *mut u8,
            row_len: usize,
        ) -> u64;

        pub fn stramashly_row2(
            first: *const u8,
            first_len: usize,
            second: *const u8,
            second_len: usize,
            row: u16,
        ) -> u64;
    }
}

/// Writes a table into a lent buffer of any length: four numbers for each
/// place, 16 bytes for each row, two numbers for each dependency. A rest that
/// is no whole part counts for nothing.
pub fn write_in(
    version: u8,
    places: &[u16],
    rows: &[u8],
    dependencies: &[u16],
    out: &mut [u8],
) -> Packed {
    // Sound as in `super::ask`.
    let answer = unsafe {
        linked::stramashly_write(
            version,
            places.as_ptr(),
            places.len(),
            rows.as_ptr(),
            rows.len(),
            dependencies.as_ptr(),
            dependencies.len(),
            out.as_mut_ptr(),
            out.len(),
        )
    };
    Packed(answer)
}

/// The values of a table, into the front of lent parts of any length: four
/// numbers for each place, 16 bytes for each row, two numbers for each dependency.
/// Parts that the largest table has no room in are refusal 11.
pub fn read_in(
    table: &[u8],
    places: &mut [u16],
    rows: &mut [u8],
    dependencies: &mut [u16],
) -> Packed {
    // Sound as in `super::ask`.
    let answer = unsafe {
        linked::stramashly_read(
            table.as_ptr(),
            table.len(),
            places.as_mut_ptr(),
            places.len(),
            rows.as_mut_ptr(),
            rows.len(),
            dependencies.as_mut_ptr(),
            dependencies.len(),
        )
    };
    Packed(answer)
}

/// Whether a table can be stepped through.
pub fn open_in(table: &[u8]) -> Packed {
    // Sound as in `super::ask`; nothing is written.
    Packed(unsafe { linked::stramashly_open(table.as_ptr(), table.len()) })
}

/// The row at a place of a table into a lent buffer of any length; one of fewer
/// than 16 bytes is refusal 11, and what a fill refuses is refused at every place.
/// Each call admits the table anew: [`Rows`](crate::Rows) does it once.
pub fn row_in(table: &[u8], at: u16, row: &mut [u8]) -> Packed {
    // Sound as in `super::ask`.
    let answer = unsafe {
        linked::stramashly_row(table.as_ptr(), table.len(), at, row.as_mut_ptr(), row.len())
    };
    Packed(answer)
}

/// A row as its sixteen bytes, from whichever of the pieces holds it and
/// without copying; none where neither does. Pairs refused before 5 hold no
/// rows.
///
/// Panics only where the linked archive isn't the one that the header
/// describes.
pub fn row_of_pieces<'a>(pieces: impl Into<Pieces<'a>>, row: u16) -> Option<&'a [u8]> {
    let Pieces([first, second]) = pieces.into();
    // Sound: each pointer goes with its slice's length; nothing is written.
    let place = Packed(unsafe {
        linked::stramashly_row2(
            first.as_ptr(),
            first.len(),
            second.as_ptr(),
            second.len(),
            row,
        )
    });
    match place.code() {
        Some(Code::RowPlace) => {
            let piece = [first, second][usize::from(place.a())];
            Some(&piece[usize::from(place.b())..][..ROW_BYTES])
        }
        Some(Code::NoRow) => None,
        _ => foreign(place),
    }
}
