//! `batch`: order, bad lines, long lines, waiting and closed pipes.

mod common;

use common::*;
use second::{State, CYCLE_NUMBERS, SOURCE_NUMBERS, WORK_WORDS};
use std::io::{BufRead, BufReader, Read, Write};
use tables::{checkable, damaged, fillable, hex, Random, Size};

/// The answer to a line whose command is none.
const UNKNOWN: &str = "error none of check, fill, report, derive, accepts, rows and write, \
    and of two pieces the first five with a 2, and row2";

#[test]
fn each_line_has_its_answer() {
    let digits: String = P.split_whitespace().collect();
    let initial = p_ending("FFFF0000");
    let blank = p_ending("FFFE0000");
    let lines = [
        (format!("check {digits}"), "race-free"),
        (format!("check {initial}"), "cycle 2 rows 0 3 edges 1 4"),
        (format!("fill {blank}"), "filled 65535 65535 1 0"),
        (format!("fill {initial}"), "none"),
        (format!("check {blank}"), "refused 9 3"),
        ("check 00".to_string(), "refused 1 0"),
        ("check".to_string(), "refused 1 0"),
        ("check ".to_string(), "refused 1 0"),
        (format!("check {P}\r"), "race-free"),
        (
            format!("fill\t{}", P.to_lowercase()),
            "filled 65535 65535 1 0",
        ),
        (format!("check {digits}"), "race-free"),
    ];
    let input: Vec<&str> = lines.iter().map(|(line, _)| line.as_str()).collect();
    let answers: Vec<&str> = lines.iter().map(|(_, answer)| *answer).collect();
    // The last line has no end.
    let answer = stramashly(&["batch"], input.join("\n").as_bytes());
    assert_eq!(answer.output, answers.join("\n") + "\n");
    assert_eq!((answer.messages.as_str(), answer.status), ("", Some(0)));
}

/// The second implementation writes its answers in the same words.
#[test]
fn generated_lines_have_the_second_implementation_s_answers() {
    let mut random = Random::new(401);
    let mut state = State::new();
    let (mut input, mut expected) = (String::new(), String::new());
    for _ in 0..3000 {
        let size = Size::of(2, 16);
        let bytes = match random.below(5) {
            0 | 1 => checkable(&mut random, size).bytes(),
            2 | 3 => fillable(&mut random, size).bytes(),
            _ => damaged(&mut random, size),
        };
        let digits = hex(&bytes);
        let checked = state.check(&bytes, WORK_WORDS, CYCLE_NUMBERS);
        let filled = state.fill(&bytes, WORK_WORDS, SOURCE_NUMBERS);
        input += &format!("check {digits}\nfill {digits}\n");
        expected += &format!("{checked}\n{filled}\n");
    }
    assert_batch(&input, &expected);
}

#[test]
fn bad_lines_are_answered_and_the_stream_goes_on() {
    let digits: String = P.split_whitespace().collect();
    let input = format!(
        "guess 00\nchecks 00\ncheckfill 00\ncheck 0\ncheck 0G\nfill \u{e4}\n check {digits}\n"
    );
    let answers = format!(
        "{UNKNOWN}\n{UNKNOWN}\n{UNKNOWN}\nerror odd count of hex digits\n\
         error 'G' at place 7 is no hex digit\nerror byte 0xC3 at place 5 is no hex digit\n\
         race-free\n"
    );
    for words in [&["batch"][..], &["batch", "-j", "2"]] {
        let answer = stramashly(words, input.as_bytes());
        assert_eq!(answer.output, answers);
        assert_eq!((answer.messages.as_str(), answer.status), ("", Some(4)));
    }
    // The same as objects.
    let answer = stramashly(&["batch", "--json"], input.as_bytes());
    let objects: String = answers
        .lines()
        .map(|line| match line.strip_prefix("error ") {
            Some(reason) => format!("{{\"verdict\":\"error\",\"reason\":\"{reason}\"}}\n"),
            None => format!("{{\"verdict\":\"{line}\"}}\n"),
        })
        .collect();
    assert_eq!((answer.output, answer.status), (objects, Some(4)));
}

#[test]
fn blank_lines_and_comments_have_no_answers() {
    let input = "\n# a comment\n  \t\r\n  # check 00\ncheck 00\n\n#\nfill 00\n#";
    for words in [&["batch"][..], &["batch", "-j3"]] {
        let answer = stramashly(words, input.as_bytes());
        assert_eq!(answer.output, "refused 1 0\nrefused 1 0\n");
        assert_eq!((answer.messages.as_str(), answer.status), ("", Some(0)));
    }
}

/// Many threads give the answers of one, in the same order.
#[test]
fn threads_keep_the_order() {
    let mut random = Random::new(402);
    let mut input = String::new();
    for _ in 0..1500 {
        let size = Size::of(2, 20);
        let digits = hex(&checkable(&mut random, size).bytes());
        input += &format!("check {digits}\nreport {digits}\nnonsense\n");
    }
    for form in [None, Some("--json")] {
        let mut words = vec!["batch"];
        words.extend(form);
        let one = stramashly(&words, input.as_bytes());
        words.extend(["-j", "4"]);
        let four = stramashly(&words, input.as_bytes());
        assert_eq!(one.output.lines().count(), 4500);
        assert!(one == four);
        assert_eq!(one.status, Some(4));
    }
}

#[test]
fn no_lines_have_no_answers() {
    let answer = stramashly(&["batch"], b"");
    assert_eq!((answer.output.as_str(), answer.status), ("", Some(0)));
}

#[test]
fn long_lines_have_the_refusal_that_they_deserve() {
    let mut input = format!("check 0000000401000000{}\n", "00".repeat(200_000)).into_bytes();
    input.extend(format!("check 0000000404000000{}\n", "00".repeat(200_000)).bytes());
    input.extend(format!("check {}\n", "0".repeat(300_001)).bytes());
    input.extend([b'x'; 300_000]);
    input.extend(b"\nfill 0000000401000000\n");
    let answer = stramashly(&["batch"], &input);
    let answers =
        format!("refused 4 0\nrefused 2 0\nerror odd count of hex digits\n{UNKNOWN}\nfilled\n");
    assert_eq!(answer.output, answers);
}

#[test]
fn a_line_over_the_limit_is_an_error() {
    let most = 1 << 20;
    let table = "check 0000000401000000";
    let padded = |length: usize| format!("{table}{}\n", " ".repeat(length - table.len()));
    let comment = format!("#{}\n", "x".repeat(2 * most));
    let input = [padded(most), comment, padded(most + 1), padded(3 * most)].concat() + table;
    let answer = stramashly(&["batch"], input.as_bytes());
    let error = |line| format!("error line {line} has more than {most} bytes\n");
    let expected = ["race-free\n", &error(3), &error(4), "race-free\n"].concat();
    assert_eq!((answer.output, answer.status), (expected, Some(4)));
}

#[test]
fn an_answer_comes_before_the_next_line_is_written() {
    ask_one_by_one(&["batch"]);
    ask_one_by_one(&["batch", "-j", "2"]);
}

fn ask_one_by_one(words: &[&str]) {
    let mut program = program_in(&scratch(), words).spawn().unwrap();
    let mut stdin = program.stdin.take().unwrap();
    let mut stdout = BufReader::new(program.stdout.take().unwrap());
    for _ in 0..3 {
        for (line, expected) in [
            ("check 0000000401000000\n", "race-free\n"),
            ("fill 00000004\n", "refused 1 0\n"),
        ] {
            // A line may also come in two parts.
            let (first, second) = line.split_at(9);
            stdin.write_all(first.as_bytes()).unwrap();
            stdin.write_all(second.as_bytes()).unwrap();
            let mut answer = String::new();
            stdout.read_line(&mut answer).unwrap();
            assert_eq!(answer, expected);
        }
    }
    drop(stdin);
    assert_eq!(program.wait().unwrap().code(), Some(0));
}

#[test]
fn nothing_is_lost_of_many_lines() {
    let count = 50_000;
    let input = "check 0000000401000000\nfill 0000000401000000\n".repeat(count);
    let answer = stramashly(&["batch"], input.as_bytes());
    assert_eq!(answer.output, "race-free\nfilled\n".repeat(count));
    assert_eq!(answer.status, Some(0));
}

#[test]
fn a_closed_pipe_ends_it_quietly() {
    close_early(&["batch"]);
    close_early(&["batch", "-j", "2"]);
}

fn close_early(words: &[&str]) {
    let mut program = program_in(&scratch(), words).spawn().unwrap();
    let mut stdin = program.stdin.take().unwrap();
    let mut stdout = BufReader::new(program.stdout.take().unwrap());
    stdin.write_all(b"check 0000000401000000\n").unwrap();
    let mut answer = String::new();
    stdout.read_line(&mut answer).unwrap();
    assert_eq!(answer, "race-free\n");
    drop(stdout);
    // The program stops reading, so that writing fails in the end.
    let lines = "check 0000000401000000\n".repeat(1000);
    let stopped = (0..10_000).any(|_| stdin.write_all(lines.as_bytes()).is_err());
    assert!(stopped);
    let mut messages = String::new();
    let mut stderr = program.stderr.take().unwrap();
    stderr.read_to_string(&mut messages).unwrap();
    assert_eq!(messages, "");
    assert_eq!(program.wait().unwrap().code(), Some(0));
}
