//! The C boundary: derivations found and read.

use super::Pieces;
use crate::answer::Packed;

mod linked {
    unsafe extern "C" {
        pub fn stramashly_derive2(
            first: *const u8,
            first_len: usize,
            second: *const u8,
            second_len: usize,
            m: u16,
            k: u16,
            work: *mut u64,
            work_len: usize,
            chain: *mut u16,
            chain_len: usize,
        ) -> u64;

        pub fn stramashly_accepts2(
            first: *const u8,
            first_len: usize,
            second: *const u8,
            second_len: usize,
            m: u16,
            k: u16,
            classes: u8,
            steps: *const u16,
            steps_len: usize,
        ) -> u64;
    }
}

/// Derives one moment's happening before another in lent buffers of any
/// length; too short ones are refusal 11.
pub fn derive_in(
    Pieces([first, second]): Pieces,
    moments: [u16; 2],
    work: &mut [u64],
    chain: &mut [u16],
) -> Packed {
    // Sound as in `super::ask`.
    Packed(unsafe {
        linked::stramashly_derive2(
            first.as_ptr(),
            first.len(),
            second.as_ptr(),
            second.len(),
            moments[0],
            moments[1],
            work.as_mut_ptr(),
            work.len(),
            chain.as_mut_ptr(),
            chain.len(),
        )
    })
}

/// Whether the chain of a class set, or the word program order where the set
/// is `PROGRAM_ORDER`, is a derivation from one moment to the other.
pub fn accepts_in(
    Pieces([first, second]): Pieces,
    moments: [u16; 2],
    classes: u8,
    steps: &[u16],
) -> Packed {
    // Sound as in `super::ask`; nothing is written.
    Packed(unsafe {
        linked::stramashly_accepts2(
            first.as_ptr(),
            first.len(),
            second.as_ptr(),
            second.len(),
            moments[0],
            moments[1],
            classes,
            steps.as_ptr(),
            steps.len(),
        )
    })
}
