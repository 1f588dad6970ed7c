//! `derive` and `accepts`: answers, statuses, bad words, batch lines.

mod common;

use common::*;
use second::{AcceptsAnswer, Derivation, State};
use tables::{checkable, hex, Random, Size};

/// What a command says of table P, given as hex digits.
fn of_p(words: &str) -> (String, Option<i32>) {
    let mut words: Vec<&str> = words.split(' ').collect();
    words.splice(1..1, ["--hex", "-"]);
    let answer = stramashly(&words, P.as_bytes());
    // Of two moments that aren't there it says which.
    let is_absent = answer.output == "refused 12 0\n";
    assert_eq!(answer.messages.contains("moment"), is_absent, "{words:?}");
    assert_eq!(answer.messages.is_empty(), !is_absent, "{words:?}");
    (answer.output, answer.status)
}

#[test]
fn each_answer_has_its_status() {
    for (words, line, status) in [
        ("derive 3 8", "chain 1 1028 519 1544", 0),
        ("derive 1 4", "program-order", 0),
        ("derive 8 3", "not-before", 1),
        ("derive 3 3", "refused 12 0", 3),
        ("derive 65535 0", "refused 12 0", 3),
        ("accepts 3 8 1 1028 519 1544", "accepted", 0),
        ("accepts 1 4 program-order", "accepted", 0),
        ("accepts 3 8 program-order", "not-accepted", 1),
        ("accepts 3 8 1", "not-accepted", 1),
        ("accepts 3 8 255 1028 519 1544", "not-accepted", 1),
        ("accepts 3 8 1 1028 519 65535", "not-accepted", 1),
        ("accepts 3 0 1 1028 519 1544", "refused 12 0", 3),
    ] {
        let expected = (format!("{line}\n"), Some(status));
        assert_eq!(of_p(words), expected, "{words}");
    }
    let refused = stramashly(&["derive", "-", "3", "8"], b"short");
    assert_eq!(refused.output, "refused 1 0\n");
    assert_eq!(refused.status, Some(3));
}

#[test]
fn over_long_derivations_are_read() {
    for (count, status) in [(383, 1), (384, 1), (5000, 1)] {
        let steps = vec!["519"; count].join(" ");
        let line = format!("accepts 3 8 1 {steps}");
        assert_eq!(of_p(&line), ("not-accepted\n".to_string(), Some(status)));
    }
}

#[test]
fn bad_usage_is_told() {
    for words in [
        ["derive", "-"].as_slice(),
        &["derive", "-", "3"],
        &["derive", "-", "3", "8", "9"],
        &["derive", "-", "3", "65536"],
        &["derive", "-", "3", "eight"],
        &["derive", "-", "3", "-8"],
        &["accepts", "-", "3", "8"],
        &["accepts", "-", "3", "8", "256", "519"],
        &["accepts", "-", "3", "8", "program-order", "519"],
        &["accepts", "-", "3", "8", "1", "65536"],
    ] {
        let answer = stramashly(words, P.as_bytes());
        assert_eq!((answer.output.as_str(), answer.status), ("", Some(4)));
        assert!(answer.messages.contains("--help"), "{}", answer.messages);
    }
    let missing = stramashly(&["derive", "no-such-file", "3", "8"], b"");
    assert_eq!((missing.output.as_str(), missing.status), ("", Some(4)));
}

#[test]
fn lines_of_a_batch() {
    let digits: String = P.split_whitespace().collect();
    let lines = [
        (format!("derive {digits} 3 8"), "chain 1 1028 519 1544"),
        (format!("derive\t{digits}  1 4 \r"), "program-order"),
        (format!("derive {digits} 8 3"), "not-before"),
        (format!("derive {digits} 3 0"), "refused 12 0"),
        ("derive 00 3 8".to_string(), "refused 1 0"),
        (format!("accepts {digits} 3 8 1 1028 519 1544"), "accepted"),
        (format!("accepts {digits} 1 4 program-order"), "accepted"),
        (
            format!("accepts {digits} 3 8 1{}", " 519".repeat(100_000)),
            "not-accepted",
        ),
        (
            format!("derive {digits} 3"),
            "error derive takes one table and two moments",
        ),
        (
            format!("derive {digits} 3 x"),
            "error \"x\" is no number from 0 to 65535; a moment is one, or 1.before, 1.at, 1.after",
        ),
        (
            format!("accepts {digits} 3 8 300 519"),
            "error \"300\" is no number from 0 to 255",
        ),
        ("derive 0 3 8".to_string(), "error odd count of hex digits"),
        (format!("check {digits}"), "race-free"),
    ];
    let input: Vec<&str> = lines.iter().map(|(line, _)| line.as_str()).collect();
    let answers: Vec<&str> = lines.iter().map(|(_, answer)| *answer).collect();
    let answer = stramashly(&["batch"], input.join("\n").as_bytes());
    assert_eq!(answer.output, answers.join("\n") + "\n");
    assert_eq!((answer.messages.as_str(), answer.status), ("", Some(4)));
}

/// A printed derivation as the second implementation reads it.
fn is_read(state: &State, first: u16, second: u16, line: &str) -> bool {
    let numbers = |text: &str| -> Vec<u16> {
        let words = text.split(' ').filter(|word| !word.is_empty());
        words.map(|word| word.parse().unwrap()).collect()
    };
    let chain = line.strip_prefix("chain ").map(numbers);
    let derivation = match &chain {
        None => {
            assert_eq!(line, "program-order");
            Derivation::ProgramOrder
        }
        Some(numbers) => Derivation::Chain {
            classes: numbers[0].try_into().unwrap(),
            steps: &numbers[1..],
        },
    };
    state.accepts_of_last(first, second, derivation) == AcceptsAnswer::Accepted
}

/// What is printed as derived can be given to `accepts`, and is a derivation.
#[test]
fn what_is_derived_is_accepted() {
    let mut random = Random::new(411);
    let mut state = State::new();
    let mut derived = 0;
    for _ in 0..20 {
        let table = checkable(&mut random, Size::of(5, 8)).bytes();
        let digits = hex(&table);
        state.take_in(&table).unwrap();
        let moments = 3 * state.row_count() as u16;
        let pairs: Vec<(u16, u16)> = (0..moments)
            .flat_map(|first| (0..moments).map(move |second| (first, second)))
            // Who meets in a control barrier comes before itself, which nobody asks for.
            .filter(|(first, second)| first != second)
            .filter(|(first, second)| state.happens_before((*first).into(), (*second).into()))
            .collect();
        let asked = |(first, second): &(u16, u16)| format!("derive {digits} {first} {second}\n");
        let input: String = pairs.iter().map(asked).collect();
        let found = stramashly(&["batch"], input.as_bytes()).output;
        let mut claims = String::new();
        for ((first, second), line) in pairs.iter().zip(found.lines()) {
            assert!(is_read(&state, *first, *second, line), "{line}");
            let claim = line.strip_prefix("chain ").unwrap_or(line);
            claims += &format!("accepts {digits} {first} {second} {claim}\n");
            derived += 1;
        }
        let read = stramashly(&["batch"], claims.as_bytes()).output;
        assert_eq!(read, "accepted\n".repeat(pairs.len()));
    }
    assert!(derived > 200, "{derived}");
}
