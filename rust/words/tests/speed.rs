//! An explanation of 128 rows takes its time, but not more.

mod common;
mod scenarios;

use common::generated;
use mend::Notes;
use std::fs;
use std::time::Duration;
use stramashly::Checker;
use words::explain_noted;

/// What any one may take, and what 19 of 20 take at most. Tests are built with
/// less optimization than the program.
const MOST: Duration = Duration::from_millis(1500);
const USUAL: Duration = Duration::from_millis(300);

/// The time that this thread was on a processor, if the system tells it.
fn processor_time() -> Option<Duration> {
    let text = fs::read_to_string("/proc/thread-self/schedstat").ok()?;
    let nanoseconds = text.split(' ').next()?.parse().ok()?;
    Some(Duration::from_nanos(nanoseconds))
}

#[test]
fn a_full_table_is_explained_in_time() {
    let ladders = scenarios::all().into_iter();
    let ladders = ladders.filter(|scenario| scenario.table[6] == 128);
    let mut runs: Vec<(Vec<u8>, Notes)> = ladders.map(|run| (run.table, run.notes)).collect();
    let more = generated(391, 34, 128, 128).into_iter();
    runs.extend(more.map(|table| (table, Notes::default())));
    let mut checker = Checker::new();
    let (mut usual, mut told) = (0, 0);
    for (table, notes) in &runs {
        let Some(begin) = processor_time() else {
            eprintln!("the system doesn't tell processor times: they aren't compared");
            return;
        };
        told += explain_noted(table, notes, &mut checker, false).lines.len();
        let taken = processor_time()
            .unwrap_or_default()
            .checked_sub(begin)
            .unwrap();
        assert!(taken <= MOST, "{taken:?}");
        usual += usize::from(taken <= USUAL);
    }
    assert!(told > runs.len() && runs.len() >= 40, "{}", runs.len());
    assert!(20 * usual >= 19 * runs.len(), "{usual} of {}", runs.len());
}
