//! Damaged tables: every refusal, at various rows, and buffers left alone.

use differential::{every_byte_changed, Comparison, Tally};
use tables::{checkable, damaged, Random, Size};

fn compare(seed: u64, count: usize, size: Size) -> Tally {
    let mut random = Random::new(seed);
    let mut comparison = Comparison::new(seed);
    let mut tally = Tally::default();
    for _ in 0..count {
        let bytes = damaged(&mut random, size);
        tally.check(&comparison.check(&bytes).unwrap());
        tally.fill(&comparison.fill(&bytes).unwrap());
    }
    tally
}

fn assert_every_refusal(tally: &Tally, rows: usize) {
    for number in (1..=10).chain([14, 15]) {
        for command in ["check", "fill"] {
            let count = tally.of(&format!("{command} refused {number}"));
            assert!(50 * count >= tally.total() / 2, "{number}:\n{tally}");
        }
        let wanted = if number < 5 { 1 } else { rows };
        assert!(tally.rows_refused(number) >= wanted, "refusal {number}");
    }
}

#[test]
fn small_tables() {
    let tally = compare(201, 16_000, Size::of(1, 10));
    assert_every_refusal(&tally, 8);
}

#[test]
fn middle_tables() {
    assert_every_refusal(&compare(202, 4_000, Size::of(11, 24)), 20);
}

#[test]
fn largest_tables() {
    assert_every_refusal(&compare(203, 400, Size::LARGEST), 8);
}

/// Every byte of some tables, changed in every way that changes one bit, and
/// to the extremes.
#[test]
fn changed_bytes() {
    let mut random = Random::new(204);
    let mut comparison = Comparison::new(204);
    let mut tally = Tally::default();
    for _ in 0..12 {
        let bytes = checkable(&mut random, Size::of(3, 6)).bytes();
        for changed in every_byte_changed(&bytes) {
            tally.check(&comparison.check(&changed).unwrap());
            tally.fill(&comparison.fill(&changed).unwrap());
        }
    }
    for number in 2..=9 {
        assert!(tally.rows_refused(number) > 0, "refusal {number}");
    }
}

#[test]
fn every_length_cut_off_or_added() {
    let mut random = Random::new(205);
    let mut comparison = Comparison::new(205);
    let mut tally = Tally::default();
    let mut bytes = checkable(&mut random, Size::LARGEST).bytes();
    let whole = bytes.len();
    bytes.resize(whole + 300, 0);
    for length in 0..=bytes.len() {
        tally.check(&comparison.check(&bytes[..length]).unwrap());
        tally.fill(&comparison.fill(&bytes[..length]).unwrap());
    }
    assert_eq!(tally.of("check refused 1"), 8);
    assert_eq!(tally.of("check refused 4"), bytes.len() - 8);
}

#[test]
fn noise() {
    let mut random = Random::new(206);
    let mut comparison = Comparison::new(206);
    let mut tally = Tally::default();
    for _ in 0..20_000 {
        let length = random.below(200);
        let mut bytes: Vec<u8> = (0..length).map(|_| random.word() as u8).collect();
        // Half of it has a header that may be good.
        if length >= 8 && random.percent(50) {
            (bytes[4], bytes[7]) = (1, 0);
            (bytes[5], bytes[6]) = (random.below(40) as u8, random.below(140) as u8);
            let following = 4 + 6 * usize::from(bytes[5]) + 16 * usize::from(bytes[6]);
            bytes[..4].copy_from_slice(&(following as u32).to_be_bytes());
            bytes.resize(following + 4, 0);
        }
        tally.check(&comparison.check(&bytes).unwrap());
        tally.fill(&comparison.fill(&bytes).unwrap());
    }
    for number in [1, 2, 3, 5, 7] {
        assert!(tally.of(&format!("check refused {number}")) > 0, "{tally}");
    }
}
