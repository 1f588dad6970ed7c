//! Tables of version 3, checked, filled, reported and derived by both.

use differential::{every_byte_changed, Comparison, Derived, Tally, FILLED, VERDICTS};
use tables::{damaged_hosted, hosted, hosted_fillable, Random, Size};

/// How often the orders that only this version has were met.
#[derive(Default)]
struct Ways {
    read_case: usize,
    domain_operations: usize,
    one_domain: usize,
    to_a_write: usize,
}

impl Ways {
    fn add(&mut self, comparison: &Comparison) {
        let state = &comparison.state;
        for x in 0..state.row_count() {
            for y in 0..state.row_count() {
                self.read_case += usize::from(state.system_rules(x, y)[0]);
                if let Some(steps) = state.domain_steps(x, y) {
                    self.domain_operations += usize::from(steps.domain_operation.is_some());
                    self.one_domain += usize::from(steps.domain_operation.is_none());
                    self.to_a_write += usize::from(steps.visibility.is_none());
                }
            }
        }
    }
}

fn compare(seed: u64, count: usize, size: Size) -> (Tally, Ways) {
    let mut random = Random::new(seed);
    let mut comparison = Comparison::new(seed);
    let (mut tally, mut ways) = (Tally::default(), Ways::default());
    for _ in 0..count {
        let bytes = hosted(&mut random, size).bytes();
        tally.check(&comparison.check(&bytes).unwrap());
        ways.add(&comparison);
        comparison.report(&bytes).unwrap();
        let bytes = hosted_fillable(&mut random, size).bytes();
        tally.fill(&comparison.fill(&bytes).unwrap());
    }
    assert_eq!(tally.of("fill not compared"), 0);
    (tally, ways)
}

#[test]
fn small_tables() {
    let (tally, _) = compare(901, 4000, Size::SMALL);
    tally.assert_one_in(40, VERDICTS.iter().chain(&FILLED));
}

#[test]
fn middle_tables() {
    let (tally, ways) = compare(902, 1500, Size::MIDDLE);
    tally.assert_one_in(40, VERDICTS.iter().chain(&FILLED));
    assert!(ways.read_case > 500, "{}", ways.read_case);
    assert!(ways.domain_operations > 500, "{}", ways.domain_operations);
    assert!(ways.one_domain > 500, "{}", ways.one_domain);
    assert!(ways.to_a_write > 300, "{}", ways.to_a_write);
}

#[test]
fn largest_tables() {
    let (tally, _) = compare(903, 25, Size::LARGEST);
    assert!(tally.of("check race-free") > 0 && tally.of("fill filled") > 0);
}

#[test]
fn damaged_tables() {
    let mut random = Random::new(904);
    let mut comparison = Comparison::new(904);
    let mut tally = Tally::default();
    for _ in 0..10_000 {
        let bytes = damaged_hosted(&mut random, Size::of(1, 10));
        tally.check(&comparison.check(&bytes).unwrap());
        tally.fill(&comparison.fill(&bytes).unwrap());
    }
    for number in (1..=10).chain(14..=20) {
        for command in ["check", "fill"] {
            let count = tally.of(&format!("{command} refused {number}"));
            assert!(200 * count >= tally.total() / 2, "{number}:\n{tally}");
        }
        let of_table = number < 5 || (16..=18).contains(&number);
        let wanted = if of_table { 1 } else { 5 };
        assert!(tally.rows_refused(number) >= wanted, "refusal {number}");
    }
}

/// Every byte of some tables, changed in every way that changes one bit, and
/// to the extremes.
#[test]
fn changed_bytes() {
    let mut random = Random::new(905);
    let mut comparison = Comparison::new(905);
    let mut tally = Tally::default();
    for _ in 0..8 {
        let bytes = hosted(&mut random, Size::of(3, 6)).bytes();
        for changed in every_byte_changed(&bytes) {
            tally.check(&comparison.check(&changed).unwrap());
        }
    }
    for number in [2, 3, 4, 5, 16, 18, 19] {
        assert!(tally.rows_refused(number) > 0, "refusal {number}");
    }
}

#[test]
fn every_pair_of_moments_of_small_tables() {
    let mut random = Random::new(906);
    let mut comparison = Comparison::new(906);
    let mut by_system = 0;
    for _ in 0..60 {
        let table = hosted_fillable(&mut random, Size::of(3, 9)).bytes();
        let mut moments = comparison.moments_of(&table);
        let count = moments.count() as u16;
        for first in 0..count {
            for second in 0..count {
                let probed = moments.probe(first, second).unwrap();
                if let Derived::Found(claim) = probed.derived {
                    let has_case_4 = claim.steps.iter().any(|step| step / 512 == 4);
                    by_system += usize::from(has_case_4);
                }
            }
        }
    }
    assert!(by_system > 150, "{by_system}");
}
