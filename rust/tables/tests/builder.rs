//! The builder's bytes, row insertion, and the generator program's lines.

use std::process::{Command, Output};
use tables::{hex, Build, Random, Row, Table, BLANK, INITIAL};

#[test]
fn bytes_follow_the_layout() {
    let row = Row::rmw(1, 2, 0x0304).at(0x0506, 7).reference(0x0809);
    let table = Table::new(&[[1, 2, 3], [4, 5, 6]], &[row]);
    let expected = "0000002001020100000100020003000400050006\
         04010004000100070506080900020304";
    assert_eq!(hex(&table.bytes()), expected);
}

#[test]
fn insertion_moves_sources_on() {
    let rows = [
        Row::write(0),
        Row::write(0),
        Row::read(0, 0),
        Row::read(0, 1),
        Row::read(0, INITIAL),
        Row::read(0, BLANK),
    ];
    let mut table = Table::of_one_workgroup(1, &rows);
    table.insert(1, Row::write(0));
    let sources: Vec<u16> = table.rows.iter().map(|row| row.source).collect();
    assert_eq!(sources, [INITIAL, INITIAL, INITIAL, 0, 2, INITIAL, BLANK]);
}

#[test]
fn random_numbers_reach_both_bounds() {
    let mut random = Random::new(0);
    let numbers: Vec<usize> = (0..1000).map(|_| random.between(3, 6)).collect();
    assert_eq!(numbers.iter().min(), Some(&3));
    assert_eq!(numbers.iter().max(), Some(&6));
}

fn generate(words: &[&str]) -> Output {
    Command::new(env!("CARGO_BIN_EXE_generate"))
        .args(words)
        .output()
        .unwrap()
}

#[test]
fn generator_writes_as_many_lines_as_asked() {
    let all_start_with = |sort: &str, words: &[&str]| {
        let output = generate(&["7", "50", "0", "128", sort]);
        assert!(output.status.success());
        let text = String::from_utf8(output.stdout).unwrap();
        assert_eq!(text.lines().count(), 50);
        for word in words {
            assert!(text.lines().any(|line| line.starts_with(word)));
        }
        text.lines()
            .all(|line| words.iter().any(|word| line.starts_with(word)))
    };
    assert!(all_start_with("check", &["check "]));
    assert!(all_start_with("fill", &["fill "]));
    assert!(all_start_with("mix", &["check ", "fill "]));
    assert!(all_start_with("damaged", &["check ", "fill "]));
}

#[test]
fn generator_refuses_bad_words() {
    for words in [
        &["1", "2", "3"] as &[&str],
        &["1", "2", "9", "3"],
        &["1", "2", "3", "129"],
        &["1", "2", "3", "4", "guess"],
        &["x", "2", "3", "4"],
    ] {
        assert_eq!(generate(words).status.code(), Some(2));
    }
}
