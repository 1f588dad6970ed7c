//! What libFuzzer calls with each of its inputs: a check, a fill and a report
//! of the same bytes, chains off and on, derivations of some of its moments,
//! its rows stepped through, its values read back and written, and the table in two
//! pieces, compared with the second implementation, every lent buffer
//! included. The counters that guide libFuzzer are those of the second
//! implementation; the proved library has none.

use differential::{Comparison, Difference, Lengths, Tally};
use second::Chains;
use std::cell::RefCell;
use stramashly::{CYCLE_NUMBERS, SOURCE_NUMBERS, WORK_WORDS};
use tables::Random;

thread_local! {
    static COMPARISON: RefCell<Comparison> = RefCell::new(Comparison::new(0));
}

/// # Safety
///
/// `data` points to `size` bytes.
#[no_mangle]
pub unsafe extern "C" fn LLVMFuzzerTestOneInput(data: *const u8, size: usize) -> i32 {
    let input: &[u8] = match size {
        0 => &[],
        _ => std::slice::from_raw_parts(data, size),
    };
    COMPARISON.with_borrow_mut(|comparison| {
        if let Err(difference) = both(comparison, input) {
            eprintln!("{}", difference.0);
            std::process::abort();
        }
    });
    0
}

/// Where the last byte is 255, the byte before it says how much longer or
/// shorter than needed the buffers are. The table is the rest.
fn both(comparison: &mut Comparison, input: &[u8]) -> Result<(), Difference> {
    if let [table @ .., less, 255] = input {
        let less = usize::from(*less);
        let lengths = |numbers| Lengths {
            work: WORK_WORDS + 8 - less % 16,
            numbers: numbers + 8 - less / 16,
        };
        for chains in [Chains::Off, Chains::On] {
            comparison.check_in(chains, table, lengths(CYCLE_NUMBERS))?;
            comparison.fill_in(chains, table, lengths(SOURCE_NUMBERS))?;
            comparison.report_in(chains, table, lengths(CYCLE_NUMBERS))?;
        }
    } else {
        for chains in [Chains::Off, Chains::On] {
            comparison.check_with(chains, input)?;
            comparison.fill_with(chains, input)?;
            comparison.report_with(chains, input)?;
        }
    }
    // The same choices for the same input.
    let seed = input.iter().fold(0, |sum: u64, byte| {
        sum.wrapping_mul(31).wrapping_add((*byte).into())
    });
    let (random, tally) = (&mut Random::new(seed), &mut Tally::default());
    comparison.write_and_step(random, input, tally)?;
    comparison.cut_anywhere(random, Chains::On, input, tally)?;
    moments(comparison, input)
}

/// The first and the last pair that only a chain can order, and a pair that
/// the first bytes name.
fn moments(comparison: &mut Comparison, table: &[u8]) -> Result<(), Difference> {
    let mut moments = comparison.moments_of(table);
    let chained = moments.chained();
    let named = match table {
        [first, second, ..] => (u16::from(*first), u16::from(*second)),
        _ => (1, 4),
    };
    let pairs = chained.first().into_iter().chain(chained.last());
    for (first, second) in pairs.copied().chain([named]) {
        moments.probe(first, second)?;
    }
    Ok(())
}
