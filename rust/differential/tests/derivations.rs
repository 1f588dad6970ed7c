//! Derivations: found exactly where the second implementation says
//! happens-before, accepted by both readers; and whatever else is claimed is
//! judged alike by both.

use differential::{Claim, Comparison, Derived, Lengths, Moments};
use second::AcceptsAnswer;
use std::collections::{BTreeMap, BTreeSet};
use stramashly::{Checker, Derivation, CHAIN_NUMBERS, PROGRAM_ORDER, WORK_WORDS};
use tables::builder::{classes::UNIFORM, order, scope};
use tables::{checkable, damaged, examples, fillable, Build, Random, Row, Size, Table};

const SMALL: Size = Size::of(2, 8);

/// How often each answer was given, and what the derivations were like.
#[derive(Default)]
struct Seen {
    words: BTreeMap<&'static str, usize>,
    /// The sets of the chains that were found, and of those that were accepted.
    found_sets: BTreeSet<u8>,
    accepted_sets: BTreeSet<u8>,
    most_steps: usize,
    changed_accepted: usize,
    changed_not_accepted: usize,
}

impl Seen {
    fn derived(&mut self, derived: &Derived) {
        let word = match derived {
            Derived::Refused { number: 12, .. } => "refused 12",
            Derived::Refused { .. } => "refused",
            Derived::NotBefore => "not before",
            Derived::Found(claim) if claim.classes == PROGRAM_ORDER => "program order",
            Derived::Found(claim) => {
                self.found_sets.insert(claim.classes);
                self.most_steps = self.most_steps.max(claim.steps.len());
                "chain"
            }
        };
        *self.words.entry(word).or_default() += 1;
    }

    fn changed(&mut self, claim: &Claim, answer: AcceptsAnswer) {
        match answer {
            AcceptsAnswer::Accepted => {
                self.changed_accepted += 1;
                self.accepted_sets.insert(claim.classes);
            }
            AcceptsAnswer::NotAccepted => self.changed_not_accepted += 1,
            AcceptsAnswer::Refused { .. } => (),
        }
    }

    fn of(&self, word: &str) -> usize {
        self.words.get(word).copied().unwrap_or(0)
    }
}

/// Derives one pair, and reads what was found with changes.
fn try_pair(moments: &mut Moments, random: &mut Random, pair: (u16, u16), seen: &mut Seen) {
    let (first, second) = pair;
    let probed = moments.probe(first, second).unwrap();
    // With other words in the buffers nothing changes.
    if random.percent(10) {
        assert_eq!(moments.derive(first, second).unwrap(), probed.derived);
    }
    seen.derived(&probed.derived);
    for (claim, answer) in &probed.read {
        seen.changed(claim, *answer);
    }
}

/// Every number of a moment of so many, and some that name none.
fn numbers(count: usize) -> impl Iterator<Item = u16> + Clone {
    let none = [count as u16, 383, 384, 511, 512, 32768, 65535];
    (0..count as u16).chain(none)
}

fn try_every_pair(comparison: &mut Comparison, random: &mut Random, table: &[u8], seen: &mut Seen) {
    let mut moments = comparison.moments_of(table);
    let count = moments.count();
    for first in numbers(count) {
        for second in numbers(count) {
            try_pair(&mut moments, random, (first, second), seen);
        }
    }
}

#[test]
fn every_pair_of_small_tables() {
    let mut random = Random::new(501);
    let mut comparison = Comparison::new(501);
    let mut seen = Seen::default();
    for _ in 0..200 {
        let checked = checkable(&mut random, SMALL).bytes();
        try_every_pair(&mut comparison, &mut random, &checked, &mut seen);
        let blank = fillable(&mut random, SMALL).bytes();
        try_every_pair(&mut comparison, &mut random, &blank, &mut seen);
    }
    for word in ["chain", "program order", "not before", "refused 12"] {
        assert!(seen.of(word) > 1000, "{word}: {}", seen.of(word));
    }
    // The word beside them.
    assert_eq!(seen.accepted_sets, (1..17).collect());
    assert!(seen.changed_accepted > 1000, "{}", seen.changed_accepted);
    assert!(seen.changed_not_accepted > 10_000);
}

#[test]
fn every_pair_of_the_examples() {
    let mut random = Random::new(502);
    let mut comparison = Comparison::new(502);
    let mut seen = Seen::default();
    for example in examples() {
        try_every_pair(&mut comparison, &mut random, &example.bytes, &mut seen);
    }
    assert!(seen.of("chain") > 100 && seen.of("refused") > 100);
}

/// Some pairs of each of some larger tables, half of them such as only a
/// chain can order.
fn try_some_pairs(seed: u64, tables: usize, size: Size, pairs: usize) -> Seen {
    let mut random = Random::new(seed);
    let mut comparison = Comparison::new(seed);
    let mut seen = Seen::default();
    for _ in 0..tables {
        let table = checkable(&mut random, size).bytes();
        let mut moments = comparison.moments_of(&table);
        let (count, chained) = (moments.count(), moments.chained());
        for place in 0..pairs {
            let any = (random.below(count) as u16, random.below(count) as u16);
            let pair = if place % 2 == 0 || chained.is_empty() {
                any
            } else {
                random.pick(&chained)
            };
            try_pair(&mut moments, &mut random, pair, &mut seen);
        }
    }
    seen
}

#[test]
fn pairs_of_middle_tables() {
    let seen = try_some_pairs(503, 450, Size::MIDDLE, 60);
    assert!(seen.of("chain") > 10_000, "{}", seen.of("chain"));
    assert!(seen.most_steps >= 6, "{}", seen.most_steps);
    // Where a larger set has a chain, its two ends' classes have one.
    assert_eq!(seen.found_sets, [1, 2, 3, 4, 5, 6, 8, 9, 10, 12].into());
    assert_eq!(seen.accepted_sets, (1..17).collect());
}

#[test]
fn pairs_of_largest_tables() {
    let seen = try_some_pairs(504, 8, Size::LARGEST, 30);
    assert!(seen.of("chain") > 80, "{}", seen.of("chain"));
}

/// A fill's refusals come before 12, by the finder and the reader.
#[test]
fn refused_tables() {
    let mut random = Random::new(505);
    let mut comparison = Comparison::new(505);
    let mut seen = Seen::default();
    for _ in 0..3000 {
        let table = damaged(&mut random, SMALL);
        let mut moments = comparison.moments_of(&table);
        for pair in [(1, 4), (0, 0), (4, 65535)] {
            try_pair(&mut moments, &mut random, pair, &mut seen);
        }
    }
    assert!(seen.of("refused") > 5000 && seen.of("refused 12") > 100);
}

/// Refusal 11 comes first, exactly below the limits.
#[test]
fn buffers_of_every_length() {
    let mut comparison = Comparison::new(506);
    let examples = examples();
    let table = |name: &str| {
        let example = examples.iter().find(|example| example.name == name);
        example.unwrap().bytes.clone()
    };
    let short = Derived::Refused { number: 11, row: 0 };
    for table in [table("p"), table("fill"), table("too-long"), Vec::new()] {
        let mut moments = comparison.moments_of(&table);
        for (work, numbers) in lengths() {
            let lengths = Lengths { work, numbers };
            let is_short = work < WORK_WORDS || numbers < CHAIN_NUMBERS;
            // A chain, the word, not before, refusal 12.
            for (first, second) in [(3, 8), (1, 4), (4, 1), (3, 3)] {
                let derived = moments.derive_in(first, second, lengths).unwrap();
                assert_eq!(derived == short, is_short, "{lengths:?}");
            }
        }
    }
}

/// Lengths of the work area and of the chain buffer around the limits.
fn lengths() -> impl Iterator<Item = (usize, usize)> {
    let chains = (0..=CHAIN_NUMBERS + 10).map(|numbers| (WORK_WORDS, numbers));
    let near = WORK_WORDS - 20..=WORK_WORDS + 20;
    let works = (0..100).chain(near).map(|work| (work, CHAIN_NUMBERS));
    let both = [(0, 0), (WORK_WORDS - 1, CHAIN_NUMBERS - 1), (9000, 70_000)];
    chains.chain(works).chain(both)
}

/// Two read-modify-writes that read each other, so that chains go round and
/// may be of any length.
fn round() -> Table {
    let rmw = |agent: u8, source, rank| Row::rmw(agent, source, rank).order(order::BOTH, UNIFORM);
    Table::of_one_workgroup(2, &[rmw(0, 1, 1).make_available(), rmw(1, 0, 2)])
}

#[test]
fn chains_of_1_to_383_steps() {
    let mut comparison = Comparison::new(507);
    let table = round().bytes();
    let mut moments = comparison.moments_of(&table);
    // From the moment before row 0 to that row, then to and fro.
    let steps: Vec<u16> = (0..400)
        .map(|place| match place {
            0 => 1025,
            _ => [513, 516][place % 2],
        })
        .collect();
    for count in 0..=steps.len() {
        let second = [4, 1][count % 2];
        let claim = Claim::chain(1, &steps[..count]);
        let answer = moments.read(0, second, &claim).unwrap();
        let is_accepted = answer == AcceptsAnswer::Accepted;
        assert_eq!(is_accepted, (1..=383).contains(&count), "{count}");
    }
}

/// A release fence, a control barrier that nobody else meets in, an acquire
/// fence, all of one agent: a control barrier is met by two different rows of
/// one instance, so nothing synchronizes here.
#[test]
fn a_step_over_one_row_alone() {
    let rows = [
        Row::barrier(0, order::RELEASE, UNIFORM),
        Row::control_barrier(0, scope::WORKGROUP, 9),
        Row::barrier(0, order::ACQUIRE, UNIFORM),
    ];
    let table = Table::of_one_workgroup(1, &rows).bytes();
    let step = Derivation::Chain {
        classes: 1,
        steps: &[519],
    };
    let answer = Checker::accepts(&table, 1, 7, step);
    assert_eq!(answer, stramashly::AcceptsAnswer::NotAccepted);
    let mut comparison = Comparison::new(508);
    let claim = Claim::chain(1, &[519]);
    let answer = comparison.moments_of(&table).read(1, 7, &claim).unwrap();
    assert_eq!(answer, AcceptsAnswer::NotAccepted);
}
