//! `rows` and `write` lines of `batch`.

mod common;

use common::*;
use second::{State, Values};
use tables::{damaged_hosted, fillable, hex, hosted_fillable, Random, Size};

/// P's places and rows.
fn parts() -> (String, String) {
    let digits: String = P.split_whitespace().collect();
    let places = "0000000000000000".to_string() + "0000000000010000";
    (places, digits[digits.len() - 128..].to_string())
}

fn answers(lines: &[String]) -> Vec<String> {
    let answer = stramashly(&["batch"], lines.join("\n").as_bytes());
    answer.output.lines().map(str::to_string).collect()
}

#[test]
fn p_is_written_and_stepped_through() {
    let digits: String = P.split_whitespace().collect();
    let (places, rows) = parts();
    let stepped: Vec<&str> = (0..4).map(|row| &rows[32 * row..][..32]).collect();
    let lines = [
        format!("rows {P}"),
        format!("write 1 84 {places} {rows} -"),
        format!("write 1 83 {places} {rows} -"),
        format!("write 4 0 {places} {rows} -"),
        format!("write 1 0 - {rows} -"),
        format!("write 3 200 {places} {rows} 00000003"),
        "write 1 8 - - -".to_string(),
        "rows 00".to_string(),
    ];
    let with_hosts = format!("0000005A03020400{places}{rows}000100000003");
    let expected = [
        format!("{} end", stepped.join(" ")),
        format!("written {digits}"),
        "refused 13 0".to_string(),
        "refused 2 0".to_string(),
        "refused 5 0".to_string(),
        format!("written {with_hosts}"),
        "written 0000000401000000".to_string(),
        "refused 1 0".to_string(),
    ];
    assert_eq!(answers(&lines), expected);
}

#[test]
fn objects() {
    let lines = "rows 0000000401000000\nwrite 1 8 - - -\nwrite 1 7 - - -\n";
    let answer = stramashly(&["batch", "--json", "-j", "2"], lines.as_bytes());
    let expected = "{\"verdict\":\"rows\",\"rows\":[]}\n\
         {\"verdict\":\"written\",\"table\":\"0000000401000000\"}\n\
         {\"verdict\":\"refused\",\"number\":13,\"row\":0,\"name\":\"ROOM\"}\n";
    assert_eq!(answer.output, expected);
    assert_eq!(answer.status, Some(0));
}

#[test]
fn bad_lines_are_answered() {
    let lines =
        "write\nwrite 1 8 - -\nwrite 1 8 - - - -\nwrite x 8 - - -\nwrite 1 8 00 - -\nrows 0\n";
    let usage = "error write takes a version, a room, places, rows and dependencies\n";
    let answer = stramashly(&["batch"], lines.as_bytes());
    let expected = usage.repeat(3)
        + "error \"x\" is no number from 0 to 255\nerror a place has 8 bytes\n\
           error odd count of hex digits\n";
    assert_eq!(answer.output, expected);
    assert_eq!(answer.status, Some(4));
}

/// They are lines of a batch, not commands.
#[test]
fn no_file_is_written_or_stepped_through() {
    for name in ["rows", "write"] {
        let answer = stramashly(&[name, "-"], b"");
        assert_eq!(answer.status, Some(4));
        assert!(answer.messages.contains("no command is called"));
    }
}

/// The second implementation writes its answers in the same words.
#[test]
fn generated_lines_have_the_second_implementation_s_answers() {
    let mut random = Random::new(411);
    let mut state = State::new();
    let size = Size::of(1, 12);
    let (mut lines, mut expected) = (Vec::new(), Vec::new());
    for count in 0..900 {
        let table = match count % 3 {
            0 => fillable(&mut random, size).bytes(),
            1 => hosted_fillable(&mut random, size).bytes(),
            _ => damaged_hosted(&mut random, size),
        };
        lines.push(format!("rows {}", hex(&table)));
        expected.push(state.step_through(&table).to_string());
        if count % 3 == 2 {
            continue;
        }
        let values = Values::of(&table);
        let room = table.len() - usize::from(random.percent(20));
        lines.push(line_of(&values, room));
        expected.push(state.write(&values, room).to_string());
    }
    let answers = answers(&lines);
    for (place, line) in lines.iter().enumerate() {
        assert_eq!(answers.get(place), expected.get(place), "{line}");
    }
}

fn line_of(values: &Values, room: usize) -> String {
    let numbers = |numbers: Vec<u16>| -> Vec<u8> {
        numbers
            .iter()
            .flat_map(|number| number.to_be_bytes())
            .collect()
    };
    let rows: Vec<u8> = values
        .rows
        .iter()
        .flat_map(|row| second::row_bytes(*row))
        .collect();
    let word = |bytes: Vec<u8>| match bytes.is_empty() {
        true => "-".to_string(),
        false => hex(&bytes),
    };
    format!(
        "write {} {room} {} {} {}",
        values.version,
        word(numbers(values.places.concat())),
        word(rows),
        word(numbers(values.dependencies.concat())),
    )
}
