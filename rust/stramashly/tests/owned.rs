//! Answers that own their lists say what the borrowed ones say.

use stramashly::{AcceptsAnswer, Checker, OwnedCheckAnswer, OwnedDeriveAnswer, OwnedFillAnswer};
use tables::{checkable, examples, fillable, Random, Size};

/// The form that borrowed answers don't allow.
#[test]
fn answers_are_collected() {
    let mut checker = Checker::new();
    let tables: Vec<Vec<u8>> = examples()
        .into_iter()
        .map(|example| example.bytes)
        .collect();
    let checked: Vec<OwnedCheckAnswer> = tables
        .iter()
        .map(|table| checker.check(table).into_owned())
        .collect();
    let filled: Vec<OwnedFillAnswer> = tables
        .iter()
        .map(|table| checker.fill(table).into_owned())
        .collect();
    for (table, (check, fill)) in tables.iter().zip(checked.iter().zip(&filled)) {
        assert_eq!(checker.check(table), check.borrowed());
        assert_eq!(checker.check(table).to_string(), check.to_string());
        assert_eq!(checker.fill(table), fill.borrowed());
        assert_eq!(checker.fill(table).to_string(), fill.to_string());
    }
    let has = |word: &str| {
        checked
            .iter()
            .any(|answer| answer.to_string().starts_with(word))
    };
    for word in ["race-free", "race ", "overwritten", "cycle", "refused"] {
        assert!(has(word), "{word}");
    }
}

#[test]
fn reports_and_derivations_are_kept() {
    let mut random = Random::new(77);
    let mut checker = Checker::new();
    let size = Size::of(2, 8);
    let mut chains = 0;
    for _ in 0..300 {
        let table = checkable(&mut random, size).bytes();
        let report = checker.report(&table).into_owned();
        assert_eq!(checker.report(&table), report.borrowed());
        assert_eq!(checker.report(&table).to_string(), report.to_string());
        let table = fillable(&mut random, size).bytes();
        for (first, second) in [(0, 3), (1, 4), (1, 7), (4, 2), (9, 9)] {
            let answer = checker.derive(&table, first, second).into_owned();
            assert_eq!(checker.derive(&table, first, second), answer.borrowed());
            assert_eq!(
                checker.derive(&table, first, second).to_string(),
                answer.to_string()
            );
            if let OwnedDeriveAnswer::Derivation(derivation) = &answer {
                // A kept derivation can be read while the checker goes on.
                checker.check(&table);
                let accepts = Checker::accepts(&table, first, second, derivation.borrowed());
                assert_eq!(accepts, AcceptsAnswer::Accepted);
                chains += usize::from(derivation.to_string().starts_with("chain"));
            }
        }
    }
    assert!(chains > 0);
}
