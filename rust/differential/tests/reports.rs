//! Reports: the counts of conflicting pairs and the racing share, compared.

use differential::{Comparison, Lengths, Tally};
use second::{Chains, CheckAnswer, ReportAnswer};
use stramashly::{CYCLE_NUMBERS, WORK_WORDS};
use tables::{checkable, damaged, examples, fillable, Build, Random, Row, Size, Table};

/// Reports on generated tables, and the largest counts that there were.
fn compare(seed: u64, count: usize, size: Size) -> (Tally, u16) {
    let mut random = Random::new(seed);
    let mut comparison = Comparison::new(seed);
    let mut tally = Tally::default();
    let mut most = 0;
    for _ in 0..count {
        let table = checkable(&mut random, size).bytes();
        let answer = comparison.report(&table).unwrap();
        tally.report(&answer);
        if let ReportAnswer::Counts(counts) = answer {
            most = most.max(counts.conflicting);
        }
    }
    (tally, most)
}

#[test]
fn small_tables() {
    let (tally, _) = compare(601, 6000, Size::SMALL);
    for words in [
        "report 0.0",
        "report 1.0",
        "report between",
        "report inconsistent",
        "report without a share",
    ] {
        assert!(tally.of(words) > 50, "{words}:\n{tally}");
    }
}

#[test]
fn middle_tables() {
    let (tally, most) = compare(602, 2000, Size::MIDDLE);
    assert!(tally.of("report between") > 300, "{tally}");
    assert!(most > 40, "{most}");
}

#[test]
fn largest_tables() {
    let (tally, most) = compare(603, 100, Size::LARGEST);
    assert!(tally.of("report between") > 10, "{tally}");
    assert!(most > 100, "{most}");
}

/// All pairs of 128 rows, which is the most that there can be.
#[test]
fn every_pair_conflicts() {
    let mut comparison = Comparison::new(604);
    for agents in 1..=32 {
        let rows: Vec<Row> = (0..128).map(|row| Row::write(row % agents)).collect();
        let table = Table::of_one_workgroup(agents.into(), &rows);
        let answer = comparison.report(&table.bytes()).unwrap();
        let ReportAnswer::Counts(counts) = answer else {
            panic!("{answer}");
        };
        assert_eq!(counts.conflicting, 8128);
        assert_eq!(counts.racing == 0, agents == 1);
    }
}

/// Refused and inconsistent tables have check's answer.
#[test]
fn without_a_report_there_is_the_check() {
    let mut random = Random::new(605);
    let mut comparison = Comparison::new(605);
    let mut tally = Tally::default();
    for round in 0..6000 {
        let size = Size::of(2, 8);
        let table = match round % 3 {
            0 => checkable(&mut random, size).bytes(),
            1 => fillable(&mut random, size).bytes(),
            _ => damaged(&mut random, size),
        };
        let answer = comparison.report(&table).unwrap();
        let checked = comparison.check(&table).unwrap();
        tally.report(&answer);
        match answer {
            ReportAnswer::Check(answer) => assert_eq!(answer, checked),
            ReportAnswer::Counts(counts) => {
                let is_race = matches!(checked, CheckAnswer::Race { .. });
                assert_eq!(is_race, counts.racing > 0);
            }
        }
    }
    assert!(tally.of("report inconsistent") > 300, "{tally}");
    for number in (1..=10).chain([14, 15]) {
        let words = format!("report refused {number}");
        assert!(tally.of(&words) > 50, "{words}:\n{tally}");
    }
}

#[test]
fn buffers_of_every_length() {
    let mut comparison = Comparison::new(606);
    let short = ReportAnswer::Check(CheckAnswer::Refused { number: 11, row: 0 });
    for example in examples() {
        let works = (WORK_WORDS - 3..=WORK_WORDS + 3).map(|work| (work, CYCLE_NUMBERS));
        let cycles = (0..=CYCLE_NUMBERS + 3).map(|numbers| (WORK_WORDS, numbers));
        for (work, numbers) in works.chain(cycles).chain([(0, 0)]) {
            let lengths = Lengths { work, numbers };
            let answer = comparison
                .report_in(Chains::Off, &example.bytes, lengths)
                .unwrap();
            let is_short = work < WORK_WORDS || numbers < CYCLE_NUMBERS;
            assert_eq!(answer == short, is_short, "{lengths:?}");
        }
    }
}
