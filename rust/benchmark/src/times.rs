//! Times of both engines and of the second implementation.

use crate::clock;
use crate::work::{Verdict, Work};
use second::{State, CYCLE_NUMBERS, WORK_WORDS};
use std::hint::black_box;
use stramashly::Checker;

/// Nanoseconds of the engine by sets, the flags engine and the second
/// implementation.
#[derive(Clone, Copy, Default)]
pub struct Three {
    pub ours: u128,
    pub flags: u128,
    pub second: u128,
}

impl Three {
    fn add(self, other: &Three) -> Three {
        Three {
            ours: self.ours + other.ours,
            flags: self.flags + other.flags,
            second: self.second + other.second,
        }
    }

    fn median(times: &[Three]) -> Three {
        let of = |part: fn(&Three) -> u128| median(times.iter().map(part).collect());
        Three {
            ours: of(|three| three.ours),
            flags: of(|three| three.flags),
            second: of(|three| three.second),
        }
    }
}

/// By repetition, then by verdict.
pub struct Times {
    repetitions: Vec<[Three; 3]>,
}

impl Times {
    pub fn take(work: &Work, repetitions: usize) -> Times {
        let mut all = All::new();
        let mut once = || Verdict::ALL.map(|verdict| all.time(work.of(verdict)));
        Times {
            repetitions: (0..repetitions).map(|_| once()).collect(),
        }
    }

    pub fn of(&self, verdict: Verdict) -> Three {
        self.medians(|times| times[verdict as usize])
    }

    pub fn in_all(&self) -> Three {
        self.medians(|times| times.iter().fold(Three::default(), Three::add))
    }

    fn medians(&self, part: impl Fn(&[Three; 3]) -> Three) -> Three {
        Three::median(&self.repetitions.iter().map(part).collect::<Vec<Three>>())
    }
}

/// Of one table.
pub fn of_table(table: &[u8], repetitions: usize) -> Three {
    let mut all = All::new();
    let table = [table.to_vec()];
    let times: Vec<Three> = (0..repetitions).map(|_| all.time(&table)).collect();
    Three::median(&times)
}

/// All three, with their buffers.
struct All {
    checker: Checker,
    state: State,
}

impl All {
    fn new() -> All {
        All {
            checker: Checker::new(),
            state: State::new(),
        }
    }

    /// They take turns, so that a slower moment of the machine meets all.
    fn time(&mut self, tables: &[Vec<u8>]) -> Three {
        let ours = time(tables, |table| {
            black_box(self.checker.check(table));
        });
        let flags = time(tables, |table| {
            black_box(self.checker.check_by_flags(table));
        });
        let second = time(tables, |table| {
            black_box(self.state.check(table, WORK_WORDS, CYCLE_NUMBERS));
        });
        Three {
            ours,
            flags,
            second,
        }
    }
}

pub fn time(tables: &[Vec<u8>], mut check: impl FnMut(&[u8])) -> u128 {
    let began = clock::now();
    for table in tables {
        check(black_box(table));
    }
    clock::now() - began
}

/// The middle one, or the lower of the two in the middle.
pub fn median(mut times: Vec<u128>) -> u128 {
    times.sort_unstable();
    times[(times.len() - 1) / 2]
}
