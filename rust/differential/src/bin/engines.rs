//! A long comparison of the library with itself: `engines SEED COUNT` asks both engines about so many small
//! tables, each checked and filled, and compares the answers and every number of the lent buffers.

use differential::{Engine, CHECKS, FILLS};
use std::process::ExitCode;
use std::time::Instant;
use stramashly::{Packed, CYCLE_NUMBERS, SOURCE_NUMBERS, WORK_WORDS};
use tables::{
    chained, chained_fillable, checkable, damaged, damaged_hosted, fillable, hex, hosted,
    hosted_fillable, Random, Size,
};

const SMALL: Size = Size::of(2, 6);

/// The buffers get random words before one table in so many: else they hold what the calls before left there.
const REFILLED: u64 = 16;

/// To make a table takes longer than to ask about it: each is asked about as it was made, then this often with one
/// more bit changed.
const CHANGES: u64 = 3;

/// The buffers that an engine is lent.
#[derive(Clone, PartialEq, Eq)]
struct Lent {
    work: Vec<u64>,
    numbers: Vec<u16>,
}

fn main() -> ExitCode {
    let Some([seed, count]) = tables::seed_and_count("engines") else {
        return ExitCode::from(2);
    };
    let began = Instant::now();
    let random = &mut Random::new(seed);
    let mut both = [Lent::of(random), Lent::of(random)];
    // How often each code was answered.
    let mut codes = [0_u64; 20];
    let mut table = Vec::new();
    for number in 0..count {
        if number % REFILLED == 0 {
            both[0] = Lent::of(random);
            both[1] = both[0].clone();
        }
        if number % (CHANGES + 1) == 0 || table.is_empty() {
            table = made(random);
        } else {
            let place = random.below(table.len());
            table[place] ^= 1 << random.below(8);
        }
        let chains = random.percent(40);
        for engines in [CHECKS, FILLS] {
            let answers = [0, 1].map(|at| both[at].ask(engines[at].1, chains, &table));
            if answers[0] != answers[1] || both[0] != both[1] {
                println!("{answers:?}, chains {chains}: {}", hex(&table));
                return ExitCode::FAILURE;
            }
            codes[(answers[0].0 >> 48) as usize % codes.len()] += 1;
        }
    }
    let seconds = began.elapsed().as_secs();
    println!("codes {codes:?}");
    println!("seed {seed}: {count} tables in {seconds} s, no difference");
    ExitCode::SUCCESS
}

impl Lent {
    fn of(random: &mut Random) -> Lent {
        Lent {
            work: (0..WORK_WORDS).map(|_| random.word()).collect(),
            numbers: (0..CYCLE_NUMBERS.max(SOURCE_NUMBERS))
                .map(|_| random.word() as u16)
                .collect(),
        }
    }

    fn ask(&mut self, engine: Engine, chains: bool, table: &[u8]) -> Packed {
        engine(
            chains,
            [table, &[]].into(),
            &mut self.work,
            &mut self.numbers,
        )
    }
}

/// Of every generator, one in eight damaged.
fn made(random: &mut Random) -> Vec<u8> {
    match random.below(16) {
        0..=3 => checkable(random, SMALL).bytes(),
        4..=6 => fillable(random, SMALL).bytes(),
        7 => chained(random, SMALL).bytes(),
        8 => chained_fillable(random, SMALL).bytes(),
        9..=11 => hosted(random, SMALL).bytes(),
        12 | 13 => hosted_fillable(random, SMALL).bytes(),
        14 => damaged(random, SMALL),
        _ => damaged_hosted(random, SMALL),
    }
}
