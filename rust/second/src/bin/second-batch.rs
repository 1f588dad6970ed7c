//! Answers lines `check HEX` and `fill HEX`, one line each; with `--chains`,
//! chains are on.

use second::{Chains, State, CYCLE_NUMBERS, SOURCE_NUMBERS, WORK_WORDS};
use std::env;
use std::io::{self, BufRead, BufWriter, Write};

fn main() -> io::Result<()> {
    let chains = if env::args().nth(1).as_deref() == Some("--chains") {
        Chains::On
    } else {
        Chains::Off
    };
    let mut state = State::new();
    let mut table = Vec::new();
    let mut line = Vec::new();
    let mut input = io::stdin().lock();
    let mut output = BufWriter::new(io::stdout().lock());
    loop {
        line.clear();
        if input.read_until(b'\n', &mut line)? == 0 {
            return output.flush();
        }
        let text = String::from_utf8_lossy(&line);
        writeln!(
            output,
            "{}",
            answer(&mut state, chains, &mut table, text.trim())
        )?;
    }
}

/// The answer to one line; `table` is only reused.
fn answer(state: &mut State, chains: Chains, table: &mut Vec<u8>, line: &str) -> String {
    // A table of no bytes has no digits, and then the space may be missing.
    let (word, digits) = line.split_once(' ').unwrap_or((line, ""));
    if word != "check" && word != "fill" {
        return "error neither check nor fill".to_string();
    }
    if let Err(reason) = read_hex(digits, table) {
        return format!("error {reason}");
    }
    if word == "check" {
        let answer = state.check_with(chains, table, WORK_WORDS, CYCLE_NUMBERS);
        answer.to_string()
    } else {
        let answer = state.fill_with(chains, table, WORK_WORDS, SOURCE_NUMBERS);
        answer.to_string()
    }
}

fn read_hex(digits: &str, table: &mut Vec<u8>) -> Result<(), &'static str> {
    table.clear();
    if !digits.len().is_multiple_of(2) {
        return Err("odd count of digits");
    }
    for pair in digits.as_bytes().chunks(2) {
        table.push(digit(pair[0])? << 4 | digit(pair[1])?);
    }
    Ok(())
}

fn digit(letter: u8) -> Result<u8, &'static str> {
    match (letter as char).to_digit(16) {
        Some(value) => Ok(value as u8),
        None => Err("not a hex digit"),
    }
}
