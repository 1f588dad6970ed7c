//! Shared by the tests: runs of the program.

#![allow(dead_code)]

use std::io::Write;
use std::path::{Path, PathBuf};
use std::process::{Command, Stdio};
use std::thread;

/// Table P, whose check is race-free.
pub const P: &str = "00000050 01020400 000000000000 000000000001 \
    010000000001000400000001FFFF0000 \
    030002020103000400040002FFFF0001 \
    02010102010500040004000200010000 \
    00010000000100040000000100000000";

/// P's digits with another end: row 3's source and rank.
pub fn p_ending(end: &str) -> String {
    let digits: String = P.split_whitespace().collect();
    format!("{}{end}", &digits[..digits.len() - end.len()])
}

/// What a run printed, and its status.
#[derive(Debug, PartialEq, Eq)]
pub struct Answer {
    pub output: String,
    pub messages: String,
    pub status: Option<i32>,
}

/// The program, to be run in a folder.
pub fn program_in(folder: &Path, words: &[&str]) -> Command {
    let mut command = Command::new(env!("CARGO_BIN_EXE_stramashly"));
    command
        .args(words)
        .current_dir(folder)
        .stdin(Stdio::piped())
        .stdout(Stdio::piped())
        .stderr(Stdio::piped());
    command
}

/// A run in a folder with this on standard input.
pub fn stramashly_in(folder: &Path, words: &[&str], input: &[u8]) -> Answer {
    let mut program = program_in(folder, words).spawn().unwrap();
    let mut stdin = program.stdin.take().unwrap();
    let input = input.to_vec();
    // The program may end before it has read all: that is no failure.
    let writer = thread::spawn(move || {
        let _ = stdin.write_all(&input);
    });
    let output = program.wait_with_output().unwrap();
    writer.join().unwrap();
    Answer {
        output: String::from_utf8(output.stdout).unwrap(),
        messages: String::from_utf8(output.stderr).unwrap(),
        status: output.status.code(),
    }
}

/// A run in a folder without input whose output may be any bytes: output, messages, status.
pub fn bytes_in(folder: &Path, words: &[&str]) -> (Vec<u8>, String, Option<i32>) {
    let mut program = program_in(folder, words);
    let output = program.stdin(Stdio::null()).output().unwrap();
    let messages = String::from_utf8(output.stderr).unwrap();
    (output.stdout, messages, output.status.code())
}

/// Lines of a batch, which are answered by these.
pub fn assert_batch(input: &str, expected: &str) {
    let answer = stramashly(&["batch"], input.as_bytes());
    let lines = answer.output.lines().zip(expected.lines());
    for ((ours, theirs), line) in lines.zip(input.lines()) {
        assert_eq!(ours, theirs, "{line}");
    }
    assert_eq!(answer.output, expected);
    assert_eq!(answer.status, Some(0));
}

/// A run in the folder for temporary files.
pub fn stramashly(words: &[&str], input: &[u8]) -> Answer {
    stramashly_in(&scratch(), words, input)
}

pub fn scratch() -> PathBuf {
    PathBuf::from(env!("CARGO_TARGET_TMPDIR"))
}
