//! `report`: answers, statuses, several files, batch lines.

mod common;

use common::*;
use second::{ReportAnswer, State, CYCLE_NUMBERS, WORK_WORDS};
use std::path::{Path, PathBuf};
use tables::{checkable, damaged, hex, Random, Size};

fn examples() -> PathBuf {
    Path::new(env!("CARGO_MANIFEST_DIR")).join("../../examples")
}

#[test]
fn each_answer_has_its_status() {
    for (name, line, status) in [
        ("leak.table", "report 3 1 0 2 0.6666666666666666", 1),
        ("p.table", "report 2 1 1 0 0.0", 0),
        ("p-private.table", "report 2 1 0 1 0.5", 1),
        ("empty.table", "report 0 0 0 0 no-share", 0),
        ("overwritten.table", "overwritten 4 1 0", 2),
        ("p-initial.table", "cycle 2 rows 0 3 edges 1 4", 2),
        ("fill.table", "refused 9 3", 3),
    ] {
        let answer = stramashly_in(&examples(), &["report", name], b"");
        assert_eq!(answer.output, format!("{line}\n"), "{name}");
        let rest = (answer.messages.as_str(), answer.status);
        assert_eq!(rest, ("", Some(status)), "{name}");
    }
}

#[test]
fn several_files_have_their_names_and_the_highest_status() {
    let words = ["report", "leak.table", "p.table"];
    let answer = stramashly_in(&examples(), &words, b"");
    let lines = "leak.table: report 3 1 0 2 0.6666666666666666\np.table: report 2 1 1 0 0.0\n";
    assert_eq!((answer.output.as_str(), answer.status), (lines, Some(1)));
}

/// The second implementation writes its reports in the same words.
#[test]
fn generated_lines_have_the_second_implementation_s_answers() {
    let mut random = Random::new(421);
    let mut state = State::new();
    let (mut input, mut expected) = (String::new(), String::new());
    let mut reports = 0;
    for round in 0..2000 {
        let size = Size::of(2, 16);
        let bytes = match round % 5 {
            0 => damaged(&mut random, size),
            _ => checkable(&mut random, size).bytes(),
        };
        let answer = state.report(&bytes, WORK_WORDS, CYCLE_NUMBERS);
        reports += usize::from(matches!(answer, ReportAnswer::Counts(_)));
        input += &format!("report {}\n", hex(&bytes));
        expected += &format!("{answer}\n");
    }
    assert_batch(&input, &expected);
    assert!(reports > 500, "{reports}");
}
