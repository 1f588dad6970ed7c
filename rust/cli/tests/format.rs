//! Every run that docs/FORMAT.md and docs/DIFFERENCES.md show, held to the
//! program.

mod common;

use common::*;
use std::fs;
use std::path::Path;
use tables::builder::{kind, sort};
use tables::{hex, Build, Row, Table};

fn document(name: &str) -> String {
    let root = concat!(env!("CARGO_MANIFEST_DIR"), "/../../docs");
    fs::read_to_string(Path::new(root).join(name)).unwrap()
}

/// The lines of a table of FORMAT: what stands in their first cell, and in
/// backticks in their second.
fn lines_below(text: &str, head: &str) -> Vec<(String, Vec<String>)> {
    let mut lines = text.lines().skip_while(|line| *line != head).skip(2);
    let mut found = Vec::new();
    while let Some(line) = lines.next().filter(|line| line.starts_with('|')) {
        let cells: Vec<&str> = line.split('|').map(str::trim).collect();
        let answers = cells[2].split('`').skip(1).step_by(2).map(str::to_string);
        found.push((cells[1].to_string(), answers.collect()));
    }
    assert!(found.len() > 3, "{head}");
    found
}

/// The answers of a batch.
fn answers(lines: &[String]) -> Vec<String> {
    let answer = stramashly(&["batch"], lines.join("\n").as_bytes());
    answer.output.lines().map(str::to_string).collect()
}

fn p() -> Vec<u8> {
    let digits: String = P.split_whitespace().collect();
    let byte = |place: usize| u8::from_str_radix(&digits[place..place + 2], 16).unwrap();
    (0..digits.len()).step_by(2).map(byte).collect()
}

/// P with one change of a line: `byte 4 is 4`, what else the byte is, its last byte
/// gone, or two bytes.
fn changed(change: &str, before: Option<usize>) -> (Vec<u8>, usize) {
    let mut table = p();
    let numbers: Vec<usize> = change
        .split(' ')
        .filter_map(|word| word.parse().ok())
        .collect();
    match (numbers[..].as_ref(), before) {
        ([at, byte], _) => table[*at] = *byte as u8,
        ([byte], Some(at)) => table[at] = *byte as u8,
        ([at, after, byte, next], _) => {
            table[*at] = *byte as u8;
            table[*after] = *next as u8;
        }
        _ => {
            assert_eq!(change, "the last byte is missing");
            table.pop();
        }
    }
    (table, numbers.first().copied().unwrap_or_default())
}

#[test]
fn each_change_of_p_is_answered_so() {
    let text = document("FORMAT.md");
    for (line, expected) in lines_below(&text, "| change | answer of check |") {
        let mut before = None;
        for change in line.split(':').next().unwrap().split(", or ") {
            let (table, at) = changed(change, before);
            before = Some(at);
            let table = hex(&table);
            // The second answer, if there is one, is a fill's.
            let lines = [format!("check {table}"), format!("fill {table}")];
            assert_eq!(answers(&lines[..expected.len()]), expected, "{line}");
        }
    }
}

/// A table of version 3 with one agent.
fn version_3(sort: u16, rows: &[Row], dependencies: &[[u16; 2]]) -> Vec<u8> {
    Table::with_sorts(&[sort], rows, dependencies).bytes()
}

/// The tables of each line of FORMAT's table of version 3.
fn tables_of(line: &str) -> Vec<Vec<u8>> {
    let (write, flush) = (Row::write(0), Row::queue(0, kind::AVAILABLE_TO_HOST));
    let (shader, queue) = (sort::SHADER, sort::QUEUE);
    let mut longer = version_3(shader, &[write], &[[0, 0]; 65]);
    longer[3] += 4;
    let table = match line {
        "64 dependencies; 65, with the length that 65 have" => {
            let passes = hex(&version_3(shader, &[write], &[[0, 0]; 64]));
            assert_eq!(answers(&[format!("check {passes}")]), ["race-free"]);
            version_3(shader, &[write], &[[0, 0]; 65])
        }
        "65, with another length" => longer,
        "a fourth number 3" => version_3(3, &[], &[]),
        "one row, and a dependency from row 0 to row 1" => version_3(shader, &[write], &[[0, 1]]),
        "row 1 is of kind 7 and of a shader or host agent" => {
            let agents = [shader, sort::HOST];
            return agents
                .map(|sort| version_3(sort, &[write, flush], &[]))
                .to_vec();
        }
        "row 1 is of kind 7, of a queue agent, and has start 1" => {
            version_3(queue, &[flush, Row { start: 1, ..flush }], &[])
        }
        "row 0 is of kind 13" => version_3(shader, &[Row { kind: 13, ..write }], &[]),
        other => panic!("no table is made of {other}"),
    };
    vec![table]
}

#[test]
fn each_table_of_version_3_is_answered_so() {
    let text = document("FORMAT.md");
    for (line, expected) in lines_below(&text, "| table | answer of check |") {
        let lines: Vec<String> = match line.strip_prefix('`').and_then(|line| line.split_once('`'))
        {
            Some((digits, _)) => vec![format!("check {digits}")],
            None => tables_of(&line)
                .iter()
                .map(|table| format!("check {}", hex(table)))
                .collect(),
        };
        for question in lines {
            assert_eq!(answers(&[question]), expected, "{line}");
        }
    }
}

/// A line of a batch that writes these values, with room for so many bytes.
fn writing(version: u8, room: usize, places: &str, rows: &str, dependencies: &str) -> String {
    format!("write {version} {room} {places} {rows} {dependencies}")
}

/// The batch lines of each line of FORMAT's table of a writer.
fn values_of(line: &str) -> Vec<String> {
    let (place, row) = ("0".repeat(16), "0".repeat(32));
    let host = "0000000000000001";
    let long = "010000000000001100000000ffff0000";
    let question = match line {
        "no agents, no rows, version 1, a buffer of 8 bytes" => writing(1, 8, "-", "-", "-"),
        "the same, a buffer of 7" => writing(1, 7, "-", "-", "-"),
        "version 4, 33 agents" => writing(4, 0, &place.repeat(33), "-", "-"),
        "33 agents, or 129 rows" => {
            let rows = writing(1, 0, "-", &row.repeat(129), "-");
            return vec![writing(1, 0, &place.repeat(33), "-", "-"), rows];
        }
        "version 2, an agent with the fourth number 1, and a dependency" => {
            writing(2, 0, host, "-", "00000000")
        }
        "version 2, a dependency" => writing(2, 0, "-", "-", "00000000"),
        "version 3, 65 dependencies of rows that aren't there" => {
            writing(3, 0, "-", "-", &"00000001".repeat(65))
        }
        "a row of 17 bytes, a buffer of 0" => writing(1, 0, &place, long, "-"),
        other => panic!("no values are made of {other}"),
    };
    vec![question]
}

#[test]
fn each_set_of_values_is_answered_so() {
    let text = document("FORMAT.md");
    for (line, expected) in lines_below(&text, "| values | answer of `write` |") {
        for question in values_of(&line) {
            let answer = answers(&[question]).concat();
            assert_eq!(
                answer.trim_start_matches("written "),
                expected.concat(),
                "{line}"
            );
        }
    }
}

/// Two pieces: P's first two rows as a table, and the other two.
fn pieces_of(line: &str) -> [Vec<u8>; 2] {
    let (mut first, second) = (p()[..52].to_vec(), p()[52..].to_vec());
    (first[3], first[6]) = (48, 2);
    match line {
        "the same with 31 bytes in the second piece" => [first, second[..31].to_vec()],
        "the same with byte 4 of the first piece 4" => {
            first[4] = 4;
            [first, second]
        }
        "P, and 125 rows" => [p(), vec![0; 125 * 16]],
        "P's rows 0 and 1 as a table, and a row of zeros" => [first, vec![0; 16]],
        other => {
            assert!(
                other.starts_with("P's rows 0 and 1 as a table (byte 3 is 48, byte 6 is 2), and")
            );
            [first, second]
        }
    }
}

#[test]
fn each_pair_of_pieces_is_answered_so() {
    let text = document("FORMAT.md");
    for (line, expected) in lines_below(&text, "| two pieces | answer |") {
        let [first, second] = pieces_of(&line);
        let question = format!("check2 {} {}", hex(&first), hex(&second));
        assert_eq!(answers(&[question]), expected, "{line}");
    }
}

/// The command at FORMAT's end, and what stands below it.
#[test]
fn p_is_answered_so() {
    let text = document("FORMAT.md");
    let (_, command) = text.split_once("    printf '%s' ").unwrap();
    let (digits, rest) = command
        .split_once(" | ./stramashly check --hex -\n")
        .unwrap();
    let digits = digits.replace(['\\', '\n'], "");
    let answer = stramashly(&["check", "--hex", "-"], digits.as_bytes());
    let shown = rest.split('`').nth(1).unwrap();
    assert_eq!(answer.output, format!("{shown}\n"));
}

/// Each block of bytes in DIFFERENCES, with the last `Here: ` before it.
#[test]
fn each_difference_is_answered_so() {
    let text = document("DIFFERENCES.md");
    let (mut here, mut digits, mut blocks) = ("", String::new(), 0);
    for line in text.lines().chain([""]) {
        if let Some(part) = line.strip_prefix("    ") {
            digits += part;
        } else if !digits.is_empty() {
            assert_eq!(answers(&[format!("check {digits}")]), [here]);
            digits.clear();
            blocks += 1;
        }
        if let Some((_, answer)) = line.split_once("Here: `") {
            here = answer.split('`').next().unwrap();
        }
    }
    assert!(blocks >= 3, "{blocks}");
}
