//! `batch` with names, of bytes, and with the worst answer as status.

mod common;

use common::*;
use std::fs;
use std::path::Path;

fn example(name: &str) -> Vec<u8> {
    let folder = Path::new(env!("CARGO_MANIFEST_DIR")).join("../../examples");
    fs::read(folder.join(name)).unwrap()
}

fn digits(name: &str) -> String {
    tables::hex(&example(name))
}

#[test]
fn answers_have_the_names_of_their_lines() {
    let leak = digits("leak.table");
    let lines = format!(
        "# a comment\n\nrun-1\t{leak}\nrun 2\tcheck 0000000401000000\nthird\treport {leak}\n\
         4\tderive {} 3 8\n\t0000000401000000\n",
        digits("p.table")
    );
    let expected =
        "run-1\trace 0 4 0\nrun 2\trace-free\nthird\treport 3 1 0 2 0.6666666666666666\n\
                    4\tchain 1 1028 519 1544\n\trace-free\n";
    for words in [&["batch", "--ids"][..], &["batch", "--ids", "-j", "3"]] {
        let answer = stramashly(words, lines.as_bytes());
        assert_eq!((answer.output.as_str(), answer.status), (expected, Some(0)));
    }
    let answer = stramashly(&["batch", "--ids", "--json"], b"a\"b\t0000000401000000\n");
    assert_eq!(
        answer.output,
        "{\"id\":\"a\\\"b\",\"verdict\":\"race-free\"}\n"
    );
}

#[test]
fn bad_lines_keep_their_names() {
    let answer = stramashly(&["batch", "--ids"], b"no tab\nx\t0G\ny\t0000000401000000\n");
    let lines: Vec<&str> = answer.output.lines().collect();
    assert_eq!(lines[0], "error no tab stands between a name and a table");
    // The place is that in the line.
    assert!(
        lines[1].starts_with("x\terror") && lines[1].contains("place 3"),
        "{}",
        lines[1]
    );
    assert_eq!(lines[2], "y\trace-free");
    assert_eq!(answer.status, Some(4));
}

#[test]
fn tables_come_as_bytes_one_after_the_other() {
    let mut bytes = example("p.table");
    bytes.extend(example("leak.table"));
    bytes.extend(example("upload.table"));
    bytes.extend(example("too-long.table"));
    let expected = "race-free\nrace 0 4 0\nrace-free\nrefused 7 1\n";
    for jobs in ["1", "3"] {
        let answer = stramashly(&["batch", "--raw", "-j", jobs], &bytes);
        assert_eq!((answer.output.as_str(), answer.status), (expected, Some(0)));
    }
    let answer = stramashly(&["batch", "--raw", "--ids"], &bytes);
    assert!(answer.output.starts_with("0\trace-free\n1\trace 0 4 0\n"));
    // What ends too early is refused as it is.
    let cut = &bytes[..bytes.len() - 1];
    let answer = stramashly(&["batch", "--raw"], cut);
    assert!(
        answer.output.ends_with("refused 4 0\n"),
        "{}",
        answer.output
    );
    let answer = stramashly(&["batch", "--raw"], &[0, 0]);
    assert_eq!(answer.output, "refused 1 0\n");
    assert_eq!(stramashly(&["batch", "--raw"], b"").output, "");
}

#[test]
fn after_a_length_that_no_table_has_nothing_is_read() {
    let mut bytes = example("p.table");
    bytes.extend([0xFF; 4]);
    bytes.extend(example("leak.table"));
    for jobs in ["1", "2"] {
        let answer = stramashly(&["batch", "--raw", "-j", jobs], &bytes);
        let lines: Vec<&str> = answer.output.lines().collect();
        assert_eq!(lines.len(), 2, "{}", answer.output);
        assert!(lines[1].starts_with("error table 1 says that 4294967295 bytes follow"));
        assert_eq!(answer.status, Some(4));
    }
}

#[test]
fn the_worst_answer_is_the_status() {
    for (lines, status) in [
        (vec!["p"], 0),
        (vec!["p", "leak"], 1),
        (vec!["leak", "p-initial", "p"], 2),
        (vec!["too-long", "leak"], 3),
    ] {
        let lines: Vec<String> = lines
            .iter()
            .map(|name| format!("check {}\n", digits(&format!("{name}.table"))))
            .collect();
        for jobs in ["1", "2"] {
            let words = ["batch", "--status", "-j", jobs];
            let answer = stramashly(&words, lines.concat().as_bytes());
            assert_eq!(answer.status, Some(status), "{lines:?}");
            let plain = stramashly(&["batch", "-j", jobs], lines.concat().as_bytes());
            assert_eq!((plain.output, plain.status), (answer.output, Some(0)));
        }
    }
    let answer = stramashly(&["batch", "--status"], b"check 0G\n");
    assert_eq!(answer.status, Some(4));
    for words in [
        &["batch", "--quiet"][..],
        &["batch", "x"],
        &["check", "--raw", "x"],
        &["check", "--ids", "x"],
    ] {
        assert_eq!(stramashly(words, b"").status, Some(4), "{words:?}");
    }
}
