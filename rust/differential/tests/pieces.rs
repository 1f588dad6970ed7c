//! Tables in two pieces: every cut, sizes that are no rows, too many rows,
//! refusals at rows of either piece, and dependencies of both.

use differential::{cut, Comparison, Lengths, Tally};
use second::{joined, Chains, CheckAnswer, FillAnswer};
use stramashly::{CYCLE_NUMBERS, WORK_WORDS};
use tables::{
    checkable, damaged, damaged_hosted, fillable, hosted, hosted_fillable, Random, Size, Table,
};

const SMALL: Size = Size::of(1, 9);

/// Every cut of a table, with chains and without.
fn compare_cuts(comparison: &mut Comparison, bytes: &[u8], tally: &mut Tally) {
    for chains in [Chains::Off, Chains::On] {
        let whole = comparison.check_with(chains, bytes).unwrap();
        for rows in 0..=usize::from(bytes[6]) {
            let [first, second] = cut(bytes, rows).unwrap();
            assert_eq!(joined([&first, &second]).unwrap(), bytes, "{rows}");
            let answers = comparison.pieces(chains, [&first, &second]).unwrap();
            tally.check(&answers.check);
            tally.fill(&answers.fill);
            // A refusal from 5 on leaves rows to be shown.
            assert!([0, usize::from(bytes[6])].contains(&answers.rows));
            assert_eq!(answers.check, whole);
        }
    }
}

fn compare_all(seed: u64, count: usize, make: impl Fn(&mut Random) -> Table) -> Tally {
    let mut random = Random::new(seed);
    let mut comparison = Comparison::new(seed);
    let mut tally = Tally::default();
    for _ in 0..count {
        let bytes = make(&mut random).bytes();
        compare_cuts(&mut comparison, &bytes, &mut tally);
    }
    tally
}

#[test]
fn every_cut_of_checkable_tables() {
    let tally = compare_all(1301, 300, |random| checkable(random, SMALL));
    for words in ["check race-free", "check race", "check cycle"] {
        assert!(tally.of(words) > 100, "{words}:\n{tally}");
    }
}

#[test]
fn every_cut_of_tables_with_blanks() {
    let tally = compare_all(1302, 300, |random| fillable(random, SMALL));
    for words in ["fill filled", "fill none", "fill race"] {
        assert!(tally.of(words) > 100, "{words}:\n{tally}");
    }
}

#[test]
fn every_cut_of_tables_with_hosts() {
    let tally = compare_all(1303, 200, |random| hosted(random, SMALL));
    assert!(tally.of("check race-free") > 100, "{tally}");
    let tally = compare_all(1304, 200, |random| hosted_fillable(random, SMALL));
    assert!(tally.of("fill filled") > 100, "{tally}");
}

#[test]
fn some_cuts_of_the_largest_tables() {
    let mut random = Random::new(1305);
    let mut comparison = Comparison::new(1305);
    for _ in 0..6 {
        for bytes in [
            checkable(&mut random, Size::LARGEST).bytes(),
            hosted(&mut random, Size::LARGEST).bytes(),
        ] {
            let whole = comparison.check(&bytes).unwrap();
            for rows in [0, 1, 64, 127, 128] {
                let [first, second] = cut(&bytes, rows).unwrap();
                let answers = comparison.pieces(Chains::Off, [&first, &second]).unwrap();
                assert_eq!(answers.check, whole);
            }
            // One row more than there may be.
            let [first, mut second] = cut(&bytes, 64).unwrap();
            second.extend([0; 16]);
            let answers = comparison.pieces(Chains::Off, [&first, &second]).unwrap();
            assert_eq!(answers.check, CheckAnswer::Refused { number: 3, row: 0 });
            assert_eq!(answers.rows, 0);
        }
    }
}

/// Damage in the second piece's rows is refused at their numbers among all
/// rows; damage of the first piece's bytes before 40 is told.
#[test]
fn damaged_tables_cut() {
    let mut random = Random::new(1306);
    let mut comparison = Comparison::new(1306);
    let mut tally = Tally::default();
    for number in 0..4000 {
        let bytes = match number % 2 {
            0 => damaged(&mut random, SMALL),
            _ => damaged_hosted(&mut random, SMALL),
        };
        let rows = bytes.get(6).map_or(0, |rows| usize::from(*rows));
        let [first, second] = match cut(&bytes, random.below(rows + 1)) {
            Some(pieces) => pieces,
            None => [bytes, vec![0; 16 * random.below(3)]],
        };
        let answers = comparison.pieces(Chains::Off, [&first, &second]).unwrap();
        tally.check(&answers.check);
        tally.fill(&answers.fill);
    }
    for number in (1..=10).chain(14..=20) {
        assert!(
            tally.of(&format!("check refused {number}")) > 5,
            "{number}:\n{tally}"
        );
    }
}

/// 40 comes after 1 to 4 and before 3; 11 before them all.
#[test]
fn sizes_that_are_no_rows() {
    let mut random = Random::new(1307);
    let mut comparison = Comparison::new(1307);
    let refused = |number| CheckAnswer::Refused { number, row: 0 };
    for _ in 0..20 {
        let bytes = checkable(&mut random, SMALL).bytes();
        for size in (0..200).chain([2047, 2048, 2049, 5000]) {
            let second = vec![255; size];
            let answers = comparison.pieces(Chains::Off, [&bytes, &second]).unwrap();
            let rows = usize::from(bytes[6]) + size / 16;
            if size % 16 != 0 {
                assert_eq!(answers.check, refused(40), "{size}");
                assert_eq!(answers.fill, FillAnswer::Refused { number: 40, row: 0 });
                assert_eq!(answers.rows, 0);
            } else if rows > 128 {
                assert_eq!(answers.check, refused(3), "{size}");
            } else if size > 0 {
                // Kind 255 is refused at the first row of the second piece.
                let row = u16::from(bytes[6]);
                assert_eq!(answers.check, CheckAnswer::Refused { number: 5, row });
                assert_eq!(answers.rows, rows);
            }
            let mut other = bytes.clone();
            other[4] = 4;
            let answers = comparison.pieces(Chains::Off, [&other, &second]).unwrap();
            assert_eq!(answers.check, refused(2), "{size}");
            let lengths = Lengths {
                work: WORK_WORDS - 1,
                numbers: CYCLE_NUMBERS,
            };
            let pieces = [&other[..], &second];
            let short = comparison.check_pieces_in(Chains::Off, pieces, lengths);
            assert_eq!(short.unwrap(), refused(11));
        }
    }
}

/// Dependencies may name rows of either piece, and no others.
#[test]
fn dependencies_of_both_pieces() {
    let mut random = Random::new(1308);
    let mut comparison = Comparison::new(1308);
    let mut alone = 0;
    for _ in 0..300 {
        let bytes = hosted(&mut random, SMALL).bytes();
        let [first, second] = cut(&bytes, usize::from(bytes[6]) / 2).unwrap();
        let whole = comparison.pieces(Chains::Off, [&first, &second]).unwrap();
        assert_ne!(whole.check, CheckAnswer::Refused { number: 18, row: 0 });
        let part = comparison.pieces(Chains::Off, [&first, &[]]).unwrap();
        if part.check == (CheckAnswer::Refused { number: 18, row: 0 }) {
            assert_eq!(part.rows, 0);
            alone += 1;
        }
    }
    assert!(alone > 50, "{alone}");
}

#[test]
fn derivations_of_every_cut() {
    let mut random = Random::new(1309);
    let mut comparison = Comparison::new(1309);
    let mut found = 0;
    for number in 0..60 {
        let bytes = match number % 2 {
            0 => checkable(&mut random, SMALL).bytes(),
            _ => hosted(&mut random, SMALL).bytes(),
        };
        let count = 3 * u16::from(bytes[6]);
        for rows in 0..=usize::from(bytes[6]) {
            let [first, second] = cut(&bytes, rows).unwrap();
            for _ in 0..30 {
                let moments = [0, 1].map(|_| random.below(usize::from(count) + 1) as u16);
                let packed = comparison.derivation_of_pieces([&first, &second], moments);
                let code = packed.unwrap().code();
                found += usize::from(code == Some(stramashly::Code::Derivation));
            }
            // 40 comes before 12.
            let packed = comparison.derivation_of_pieces([&first, &second[..0]], [0, 0]);
            assert!(packed.is_ok());
            let packed = comparison.derivation_of_pieces([&first, &[0; 7]], [0, 0]);
            assert_eq!(packed.unwrap().a(), 40);
        }
    }
    assert!(found > 200, "{found}");
}
