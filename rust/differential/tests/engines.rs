//! That the flags engine is asked where it is asked for. No contract can say
//! so: both engines have the same one. So the time that an answer takes is
//! counted: the flags engine's is many times the other's.

use differential::{Engine, CHECKS, FILLS};
use std::time::{Duration, Instant};
use stramashly::{Packed, CYCLE_NUMBERS, WORK_WORDS};
use tables::{checkable, fillable, Random, Size, Table};

/// A factor far below what was seen, and far above what a busy machine does to
/// the fastest of several runs.
const TIMES: u32 = 8;

/// The answer, and the shortest time that it took.
fn fastest(engine: Engine, table: &[u8]) -> (Packed, Duration) {
    let (mut work, mut numbers) = (vec![0; WORK_WORDS], vec![0; CYCLE_NUMBERS]);
    let runs = (0..5).map(|_| {
        let start = Instant::now();
        let answer = engine(false, table.into(), &mut work, &mut numbers);
        (answer, start.elapsed())
    });
    runs.min_by_key(|(_, time)| *time).unwrap()
}

/// Three tables of 128 rows: the same answer, after so many times as long.
fn compare(generate: fn(&mut Random, Size) -> Table, [(_, sets), (_, flags)]: [(&str, Engine); 2]) {
    let mut random = Random::new(601);
    for _ in 0..3 {
        let table = generate(&mut random, Size::LARGEST).bytes();
        let ((one, short), (two, long)) = (fastest(sets, &table), fastest(flags, &table));
        assert_eq!(one, two);
        assert!(short * TIMES < long, "{short:?} and {long:?}");
    }
}

#[test]
fn a_check_by_flags_is_the_flags_engines() {
    compare(checkable, CHECKS);
}

#[test]
fn a_fill_by_flags_is_the_flags_engines() {
    compare(fillable, FILLS);
}
