//! Peak memory, measured in a process of its own for each implementation.

use crate::work::Work;
use second::{State, CYCLE_NUMBERS, WORK_WORDS};
use std::hint::black_box;
use std::io::{self, Read, Write};
use std::process::{Command, Stdio};
use std::{env, fs};
use stramashly::Checker;

/// The argument that asks a process to measure itself.
pub const WORD: &str = "memory-of";

pub const IMPLEMENTATIONS: [&str; 3] = ["neither", "ours", "second"];

/// The peak of a process that has checked all the tables, in KiB.
pub fn peak_of(implementation: &str, work: &Work) -> Result<u64, String> {
    let text = |error: io::Error| format!("can't measure memory: {error}");
    let mut process = Command::new(env::current_exe().map_err(text)?)
        .args([WORD, implementation])
        .stdin(Stdio::piped())
        .stdout(Stdio::piped())
        .spawn()
        .map_err(text)?;
    if let Some(mut stdin) = process.stdin.take() {
        for table in work.all() {
            stdin.write_all(table).map_err(text)?;
        }
    }
    let output = process.wait_with_output().map_err(text)?;
    let answer = String::from_utf8_lossy(&output.stdout);
    let number = answer.trim().parse();
    number.map_err(|_| format!("can't measure memory: {answer:?}"))
}

/// Checks the tables on standard input and prints the peak.
pub fn measure(implementation: &str) -> Result<(), String> {
    match implementation {
        "ours" => {
            let mut checker = Checker::new();
            each_table(|table| {
                black_box(checker.check(table));
            })?;
        }
        "second" => {
            let mut state = State::new();
            each_table(|table| {
                black_box(state.check(table, WORK_WORDS, CYCLE_NUMBERS));
            })?;
        }
        _ => each_table(|table| {
            black_box(table);
        })?,
    }
    println!("{}", own_peak()?);
    Ok(())
}

/// The tables stand one after the other; bytes 0 to 3 say how many follow.
fn each_table(mut check: impl FnMut(&[u8])) -> Result<(), String> {
    let mut input = io::stdin().lock();
    let mut table = [0; stramashly::MAX_TABLE_BYTES];
    while input.read_exact(&mut table[..4]).is_ok() {
        let following = u32::from_be_bytes([table[0], table[1], table[2], table[3]]) as usize;
        let rest = table.get_mut(4..4 + following);
        let rest = rest.ok_or("a table is too long")?;
        input
            .read_exact(rest)
            .map_err(|error| format!("can't read a table: {error}"))?;
        check(&table[..4 + following]);
    }
    Ok(())
}

fn own_peak() -> Result<u64, String> {
    let status = fs::read_to_string("/proc/self/status").map_err(|error| error.to_string())?;
    let line = status.lines().find(|line| line.starts_with("VmHWM:"));
    let number = line.and_then(|line| line.split_whitespace().nth(1)?.parse().ok());
    number.ok_or_else(|| "no VmHWM".to_string())
}
