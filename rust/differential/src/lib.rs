//! Compares the proved checker with the second implementation: the answer,
//! and every number of every lent buffer.
//!
//! Every call has random words in its buffers, and its table lies among
//! random bytes at a random address, so that an answer that depended on any
//! of them would differ sooner or later.

mod claim;
mod expected;
mod noise;
mod parts;
mod pieces;
mod reasons;
mod reports;
mod tally;
mod writing;

pub use claim::Claim;
pub use parts::{cut, readable};
pub use pieces::OfPieces;
pub use reasons::{Derived, Moments, Probed};
pub use tally::{Tally, FILLED, VERDICTS};

use noise::Noise;
use second::{Chains, CheckAnswer, FillAnswer, Pieces, State};
use stramashly::{
    check_by_flags, check_in, fill_by_flags, fill_in, Packed, CYCLE_NUMBERS, SOURCE_NUMBERS,
    WORK_WORDS,
};
use tables::Random;

/// A function of the library: chains, table, work area, cycle or source buffer.
pub type Engine = fn(bool, stramashly::Pieces, &mut [u64], &mut [u16]) -> Packed;

/// The engine by sets' and the flags engine's, which is asked of one piece.
pub const CHECKS: [(&str, Engine); 2] = [
    ("check2", check_in),
    ("check by flags", |on, pieces, work, cycle| {
        check_by_flags(on, pieces.0[0], work, cycle)
    }),
];
pub const FILLS: [(&str, Engine); 2] = [
    ("fill2", fill_in),
    ("fill by flags", |on, pieces, work, sources| {
        fill_by_flags(on, pieces.0[0], work, sources)
    }),
];

/// Longer tables take the flags engine long: it is asked of one in so many.
const SHORT_TABLE: usize = 512;
const LONG_TABLES: usize = 24;

/// Lengths of the work area and of the cycle or source buffer.
#[derive(Clone, Copy, Debug)]
pub struct Lengths {
    pub work: usize,
    pub numbers: usize,
}

/// Runs both on one table after the other.
pub struct Comparison {
    pub state: State,
    random: Random,
    noise: Noise,
    around: Vec<u8>,
    ours: Lent,
    expected: Lent,
    joined: Option<pieces::Joined>,
}

/// The lent buffers.
#[derive(Clone, Default, PartialEq, Eq)]
struct Lent {
    work: Vec<u64>,
    numbers: Vec<u16>,
}

/// Where the two differ.
#[derive(Debug)]
pub struct Difference(pub String);

impl Comparison {
    pub fn new(seed: u64) -> Comparison {
        let mut random = Random::new(seed);
        Comparison {
            state: State::new(),
            noise: Noise::new(&mut random),
            random,
            around: Vec::new(),
            ours: Lent::default(),
            expected: Lent::default(),
            joined: None,
        }
    }

    /// A check with buffers that are long enough, chains off.
    pub fn check(&mut self, table: &[u8]) -> Result<CheckAnswer, Difference> {
        self.check_with(Chains::Off, table)
    }

    /// A check with buffers that are long enough.
    pub fn check_with(&mut self, chains: Chains, table: &[u8]) -> Result<CheckAnswer, Difference> {
        let lengths = self.enough(CYCLE_NUMBERS);
        self.check_in(chains, table, lengths)
    }

    /// A fill with buffers that are long enough, chains off.
    pub fn fill(&mut self, table: &[u8]) -> Result<FillAnswer, Difference> {
        self.fill_with(Chains::Off, table)
    }

    /// A fill with buffers that are long enough.
    pub fn fill_with(&mut self, chains: Chains, table: &[u8]) -> Result<FillAnswer, Difference> {
        let lengths = self.enough(SOURCE_NUMBERS);
        self.fill_in(chains, table, lengths)
    }

    /// The least lengths, or some numbers more.
    fn enough(&mut self, numbers: usize) -> Lengths {
        let more = [0, 0, 1, 2, 100];
        Lengths {
            work: WORK_WORDS + self.random.pick(&more),
            numbers: numbers + self.random.pick(&more),
        }
    }

    /// A check with buffers of any length.
    pub fn check_in(
        &mut self,
        chains: Chains,
        table: &[u8],
        lengths: Lengths,
    ) -> Result<CheckAnswer, Difference> {
        self.check_pieces_in(chains, [table, &[]], lengths)
    }

    /// A fill with buffers of any length.
    pub fn fill_in(
        &mut self,
        chains: Chains,
        table: &[u8],
        lengths: Lengths,
    ) -> Result<FillAnswer, Difference> {
        self.fill_pieces_in(chains, [table, &[]], lengths)
    }

    /// Those that are asked of a table: the engine by sets always, the flags engine of
    /// one piece.
    fn engines(
        &mut self,
        both: [(&'static str, Engine); 2],
        [first, second]: Pieces,
    ) -> impl Iterator<Item = (&'static str, Engine)> {
        let is_asked = first.len() < SHORT_TABLE || self.random.below(LONG_TABLES) == 0;
        let is_asked = is_asked && second.is_empty();
        both.into_iter().take(if is_asked { 2 } else { 1 })
    }

    /// What an engine answers of pieces that lie among random bytes.
    fn ask(&mut self, engine: Engine, chains: Chains, places: [(usize, usize); 2]) -> Packed {
        let lent = places.map(|(at, size)| &self.around[at..at + size]);
        let Lent { work, numbers } = &mut self.ours;
        engine(chains == Chains::On, lent.into(), work, numbers)
    }

    /// Puts random words into the buffers, and the table among random bytes;
    /// gives the table's place.
    fn prepare(&mut self, table: &[u8], lengths: Lengths) -> usize {
        let (random, noise) = (&mut self.random, &self.noise);
        let Lent { work, numbers } = &mut self.ours;
        noise.put(random, work, lengths.work, |word| word);
        noise.put(random, numbers, lengths.numbers, |word| word as u16);
        self.expected.work.clone_from(work);
        self.expected.numbers.clone_from(numbers);
        let at = random.below(8);
        self.around.clear();
        self.around.extend((0..at).map(|_| random.word() as u8));
        self.around.extend(table);
        self.around.extend((0..32).map(|_| random.word() as u8));
        at
    }

    fn compare(
        &self,
        words: impl Fn() -> String,
        lengths: Lengths,
        packed: Packed,
        expected: Packed,
    ) -> Result<(), Difference> {
        let part = if packed != expected {
            format!("{packed:?} instead of {expected:?}")
        } else if let Some(place) = first_difference(&self.ours.work, &self.expected.work) {
            format!("{packed:?}, but work area differs at {place}")
        } else if let Some(place) = first_difference(&self.ours.numbers, &self.expected.numbers) {
            format!("{packed:?}, but buffer differs at {place}")
        } else {
            return Ok(());
        };
        Err(Difference(format!("{part}: {lengths:?}\n{}", words())))
    }
}

/// The bytes with each of them changed in every way that changes one bit, and to
/// the extremes.
pub fn every_byte_changed(bytes: &[u8]) -> impl Iterator<Item = Vec<u8>> + '_ {
    (0..bytes.len()).flat_map(move |place| {
        let changes = (0..8).map(move |bit| bytes[place] ^ 1 << bit);
        changes.chain([0, 255]).map(move |byte| {
            let mut changed = bytes.to_vec();
            changed[place] = byte;
            changed
        })
    })
}

fn first_difference<T: PartialEq>(ours: &[T], expected: &[T]) -> Option<usize> {
    // Whole buffers are compared far sooner than number by number.
    if ours == expected {
        return None;
    }
    ours.iter().zip(expected).position(|(x, y)| x != y)
}
