//! Answers of the checker, taken apart, and the lent buffers.

mod common;

use common::example;
use std::thread;
use stramashly::*;
use tables::examples;

fn race(first: u16, second: u16, byte: u16) -> CheckAnswer<'static> {
    CheckAnswer::Race {
        first,
        second,
        byte,
    }
}

#[test]
fn checks_of_each_verdict() {
    let mut checker = Checker::new();
    assert_eq!(checker.check(&example("p")), CheckAnswer::RaceFree);
    assert_eq!(checker.check(&example("leak")), race(0, 4, 0));
    assert_eq!(
        checker.check(&example("overwritten")),
        CheckAnswer::Overwritten {
            reader: 4,
            writer: 1,
            byte: 0
        }
    );
    assert_eq!(
        checker.check(&example("p-initial")),
        CheckAnswer::Cycle {
            rows: &[0, 3],
            edges: &[1, 4]
        }
    );
    assert_eq!(
        checker.check(&example("too-long")),
        CheckAnswer::Refused { number: 7, row: 1 }
    );
}

#[test]
fn chains_are_off_unless_asked_for() {
    let table = example("chain-available");
    let race = race(0, 5, 0);
    assert_eq!(Checker::new().check(&table), race);
    let mut on = Checker::new().with_chains(true);
    assert_eq!(on.check(&table), CheckAnswer::RaceFree);
    assert!(matches!(on.fill(&table), FillAnswer::Filled(_)));
    assert_eq!(on.report(&table).to_string(), "report 3 2 1 0 0.0");
    assert_eq!(on.check(&example("chain-apart")).to_string(), "race 0 5 0");
    assert_eq!(on.with_chains(false).check(&table), race);
}

#[test]
fn fills_of_each_answer() {
    let mut checker = Checker::new();
    assert_eq!(
        checker.fill(&example("fill")),
        FillAnswer::Filled(&[INITIAL, INITIAL, 1, 0])
    );
    assert_eq!(checker.fill(&example("fill-none")), FillAnswer::None);
    assert_eq!(
        checker.fill(&example("fill-race")),
        FillAnswer::Race {
            first: 0,
            second: 4,
            byte: 0
        }
    );
    assert_eq!(
        checker.fill(&example("wrong-class")),
        FillAnswer::Refused { number: 8, row: 1 }
    );
}

#[test]
fn answers_don_t_depend_on_earlier_tables() {
    let mut used = Checker::default();
    for first in examples() {
        let _ = used.check(&first.bytes);
        for second in examples() {
            let mut fresh = Checker::new();
            assert_eq!(used.check(&second.bytes), fresh.check(&second.bytes));
            assert_eq!(used.fill(&second.bytes), fresh.fill(&second.bytes));
        }
    }
}

#[test]
fn threads_may_check_at_once() {
    let answers = || {
        let mut checker = Checker::new();
        let mut texts = Vec::new();
        for _ in 0..20 {
            for example in examples() {
                texts.push(checker.check(&example.bytes).to_string());
                texts.push(checker.fill(&example.bytes).to_string());
            }
        }
        texts
    };
    let alone = answers();
    thread::scope(|scope| {
        let threads: Vec<_> = (0..4).map(|_| scope.spawn(answers)).collect();
        for thread in threads {
            assert_eq!(thread.join().unwrap(), alone);
        }
    });
}

#[test]
fn lent_buffers_hold_what_the_header_says() {
    let mut work = vec![7; WORK_WORDS + 1];
    let mut cycle = vec![9; CYCLE_NUMBERS + 1];
    let packed = check_in(false, (&example("p-initial")).into(), &mut work, &mut cycle);
    assert_eq!(packed, Packed::new(Code::Cycle, 2, 0, 0));
    let mut expected = vec![0; CYCLE_NUMBERS + 1];
    expected[..2].copy_from_slice(&[0, 3]);
    expected[CYCLE_EDGES..][..2].copy_from_slice(&[1, 4]);
    expected[CYCLE_NUMBERS] = 9;
    assert_eq!(cycle, expected);
    assert!(work[..WORK_WORDS].iter().all(|word| *word == 0));
    assert_eq!(work[WORK_WORDS], 7);

    let mut sources = vec![9; SOURCE_NUMBERS];
    let packed = fill_in(false, (&example("fill")).into(), &mut work, &mut sources);
    assert_eq!(packed, Packed::new(Code::Filled, 4, 0, 0));
    assert_eq!(sources[..5], [INITIAL, INITIAL, 1, 0, 9]);
}

#[test]
fn short_buffers_are_refusal_11() {
    let refused = Packed::new(Code::Refused, 11, 0, 0);
    let table = example("p");
    let (mut work, mut cycle) = (vec![7; WORK_WORDS], vec![9; CYCLE_NUMBERS]);
    assert_eq!(
        check_in(false, (&table).into(), &mut work[1..], &mut cycle),
        refused
    );
    assert_eq!(
        check_in(false, (&table).into(), &mut work, &mut cycle[1..]),
        refused
    );
    assert_eq!(check_in(false, (&table).into(), &mut [], &mut []), refused);
    assert_eq!(
        fill_in(
            false,
            (&table).into(),
            &mut work,
            &mut cycle[..SOURCE_NUMBERS - 1]
        ),
        refused
    );
    assert!(work.iter().all(|word| *word == 7) && cycle.iter().all(|number| *number == 9));
}

#[test]
fn packed_answers_come_apart() {
    let packed = Packed::new(Code::Race, 1, 2, 65535);
    assert_eq!(packed.0, 0x0001_0001_0002_FFFF);
    assert_eq!(packed.code(), Some(Code::Race));
    assert_eq!((packed.a(), packed.b(), packed.c()), (1, 2, 65535));
    assert_eq!(Packed(15 << 48).code(), Some(Code::End));
    assert_eq!(Packed(16 << 48).code(), Some(Code::RowPlace));
    assert_eq!(Packed(17 << 48).code(), Some(Code::NoRow));
    assert_eq!(Packed(18 << 48).code(), Some(Code::NoPairs));
    assert_eq!(Packed(19 << 48).code(), Some(Code::Read));
    assert_eq!(Packed(20 << 48).code(), None);
    assert_eq!(format!("{packed:?}"), "Packed(1, 1, 2, 65535)");
}
