//! Derivations, found and read, and the lent buffers.

mod common;

use common::example;
use stramashly::*;

/// Why row 1's availability moment (3) of table P happens before row 2's
/// visibility moment (8).
const STEPS: [u16; 3] = [1028, 519, 1544];
const CHAIN: Derivation = Derivation::Chain {
    classes: 1,
    steps: &STEPS,
};

#[test]
fn derivations_of_each_answer() {
    let table = example("p");
    let mut checker = Checker::new();
    for (first, second, expected, text) in [
        (
            3,
            8,
            DeriveAnswer::Derivation(CHAIN),
            "chain 1 1028 519 1544",
        ),
        (
            1,
            4,
            DeriveAnswer::Derivation(Derivation::ProgramOrder),
            "program-order",
        ),
        (8, 3, DeriveAnswer::NotBefore, "not-before"),
        (
            3,
            3,
            DeriveAnswer::Refused { number: 12, row: 0 },
            "refused 12 0",
        ),
    ] {
        let answer = checker.derive(&table, first, second);
        assert_eq!((answer, answer.to_string().as_str()), (expected, text));
    }
    let refused = DeriveAnswer::Refused { number: 7, row: 1 };
    assert_eq!(checker.derive(&example("too-long"), 3, 3), refused);
}

#[test]
fn a_derivation_is_read_as_it_was_found() {
    let table = example("p");
    let mut checker = Checker::new();
    let DeriveAnswer::Derivation(found) = checker.derive(&table, 3, 8) else {
        panic!("no derivation");
    };
    assert_eq!(
        Checker::accepts(&table, 3, 8, found),
        AcceptsAnswer::Accepted
    );
}

#[test]
fn reading_has_each_answer() {
    let table = example("p");
    let accepts = |first, second, derivation| {
        let answer = Checker::accepts(&table, first, second, derivation);
        answer.to_string()
    };
    assert_eq!(accepts(3, 8, CHAIN), "accepted");
    assert_eq!(accepts(4, 8, CHAIN), "not-accepted");
    assert_eq!(accepts(1, 4, Derivation::ProgramOrder), "accepted");
    assert_eq!(accepts(3, 8, Derivation::ProgramOrder), "not-accepted");
    assert_eq!(accepts(3, 65535, CHAIN), "refused 12 0");
    let refused = Checker::accepts(&example("version-4"), 3, 3, CHAIN);
    assert_eq!(refused.to_string(), "refused 2 0");
    // A blank is a fill's business, and no obstacle here.
    let blank = Checker::accepts(&example("fill"), 3, 8, CHAIN);
    assert_eq!(blank, AcceptsAnswer::Accepted);
}

#[test]
fn lent_buffers_hold_what_the_header_says() {
    let table = example("p");
    let mut work = vec![7; WORK_WORDS + 1];
    let mut chain = vec![9; CHAIN_NUMBERS + 1];
    let packed = derive_in((&table).into(), [3, 8], &mut work, &mut chain);
    assert_eq!(packed, Packed::new(Code::Derivation, 1, 3, 0));
    assert_eq!(chain[..3], STEPS);
    assert!(chain[3..].iter().all(|number| *number == 9));
    assert!(work[..WORK_WORDS].iter().all(|word| *word == 0));
    assert_eq!(work[WORK_WORDS], 7);
    for (first, second, expected) in [
        (1, 4, Packed::new(Code::Derivation, 16, 0, 0)),
        (4, 1, Packed::new(Code::NotBefore, 0, 0, 0)),
    ] {
        let (mut work, mut chain) = (vec![7; WORK_WORDS], vec![9; CHAIN_NUMBERS]);
        let packed = derive_in((&table).into(), [first, second], &mut work, &mut chain);
        assert_eq!(packed, expected);
        assert!(chain.iter().all(|number| *number == 9));
        assert!(work.iter().all(|word| *word == 0));
    }
}

#[test]
fn refusals_keep_the_buffers() {
    let (mut work, mut chain) = (vec![7; WORK_WORDS], vec![9; CHAIN_NUMBERS]);
    let refused = |number| Packed::new(Code::Refused, number, 0, 0);
    let table = example("p");
    // Refusal 11 comes before all others.
    for table in [&table, &Vec::new()] {
        let packed = derive_in(table.into(), [3, 8], &mut work[1..], &mut chain);
        assert_eq!(packed, refused(11));
        let packed = derive_in(table.into(), [3, 3], &mut work, &mut chain[1..]);
        assert_eq!(packed, refused(11));
        assert_eq!(
            derive_in(table.into(), [3, 8], &mut [], &mut []),
            refused(11)
        );
    }
    let packed = derive_in((&table).into(), [3, 0], &mut work, &mut chain);
    assert_eq!(packed, refused(12));
    assert_eq!(
        derive_in((&[]).into(), [3, 0], &mut work, &mut chain),
        refused(1)
    );
    assert!(work.iter().all(|word| *word == 7) && chain.iter().all(|number| *number == 9));
}

#[test]
fn answers_don_t_depend_on_earlier_tables() {
    let mut used = Checker::new();
    let tables = ["p", "leak", "barriers", "q-rmw", "fill-none", "p-initial"].map(example);
    for table in &tables {
        for pair in 0..100 {
            let (first, second) = (pair / 10, pair % 10 + 2);
            let answer = used.derive(table, first, second).to_string();
            let mut fresh = Checker::new();
            let _ = used.check(&tables[usize::from(pair) % tables.len()]);
            assert_eq!(fresh.derive(table, first, second).to_string(), answer);
        }
    }
}
