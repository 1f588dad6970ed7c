//! `check` and `fill` on files and standard input, good and bad.

mod common;

use common::*;
use std::fs::{self, File, OpenOptions};
use std::io::Read;
use std::process::{Command, Stdio};
use tables::{hex, Build, Random, Row, Table};

fn good(output: &str, status: i32) -> Answer {
    Answer {
        output: output.to_string(),
        messages: String::new(),
        status: Some(status),
    }
}

/// A file of these bytes in the folder for temporary files.
fn file(name: &str, bytes: &[u8]) -> String {
    let path = scratch().join(name);
    fs::write(&path, bytes).unwrap();
    path.to_str().unwrap().to_string()
}

fn from_hex(digits: &str) -> Vec<u8> {
    let digits: Vec<u8> = digits
        .chars()
        .filter_map(|letter| letter.to_digit(16))
        .map(|digit| digit as u8)
        .collect();
    digits
        .chunks(2)
        .map(|pair| pair[0] << 4 | pair[1])
        .collect()
}

#[test]
fn standard_input_and_hex() {
    let bytes = from_hex(P);
    assert_eq!(stramashly(&["check", "-"], &bytes), good("race-free\n", 0));
    assert_eq!(
        stramashly(&["check", "--hex", "-"], P.as_bytes()),
        good("race-free\n", 0)
    );
    let lines = P.to_lowercase().replace(' ', "\r\n\t");
    assert_eq!(
        stramashly(&["--hex", "check", "-"], lines.as_bytes()),
        good("race-free\n", 0)
    );
    let blank = p_ending("FFFE0000");
    assert_eq!(
        stramashly(&["fill", "--hex", "-"], blank.as_bytes()),
        good("filled 65535 65535 1 0\n", 0)
    );
    assert_eq!(
        stramashly(&["check", "--hex", "-"], blank.as_bytes()),
        good("refused 9 3\n", 3)
    );
}

#[test]
fn several_files_have_their_names_and_the_highest_status() {
    let clean = file("several-clean", &from_hex(P));
    let cyclic = file("several-cyclic", &from_hex(&p_ending("FFFF0000")));
    let missing = scratch().join("several-missing");
    let missing = missing.to_str().unwrap();
    let lines = format!("{clean}: race-free\n{cyclic}: cycle 2 rows 0 3 edges 1 4\n");
    let summed = |output: &str, status, summary: &str| Answer {
        messages: format!("stramashly: {summary}\n"),
        ..good(output, status)
    };
    assert_eq!(
        stramashly(&["check", &clean, &cyclic], b""),
        summed(&lines, 2, "2 files: 1 race-free, 1 cycle")
    );
    let with_input = format!("-: refused 1 0\n{lines}");
    assert_eq!(
        stramashly(&["check", "-", &clean, &cyclic], b"\0hort"),
        summed(&with_input, 3, "3 files: 1 race-free, 1 cycle, 1 refused")
    );
    // Quiet: the status alone.
    let quiet = stramashly(&["check", "--quiet", "-", &clean, &cyclic], b"short");
    assert_eq!(quiet, good("", 3));
    // In several threads the same, in order.
    let mut words = vec!["check", "-j", "3"];
    words.extend([clean.as_str(), cyclic.as_str()].repeat(40));
    let answer = stramashly(&words, b"");
    assert_eq!(answer.output, lines.repeat(40));
    let summary = "stramashly: 80 files: 40 race-free, 40 cycle\n";
    assert_eq!(
        (answer.messages.as_str(), answer.status),
        (summary, Some(2))
    );
    // A file that is gone costs the others nothing.
    let answer = stramashly(&["check", &clean, missing, &cyclic], b"");
    assert_eq!(answer.output, lines);
    assert_eq!(answer.status, Some(4));
    assert!(answer.messages.contains(missing), "{}", answer.messages);
    let summary = "3 files: 1 race-free, 1 cycle, 1 can't be read";
    let lines: Vec<&str> = answer.messages.lines().collect();
    assert_eq!(lines[1..], [format!("stramashly: {summary}")]);
}

/// In objects a file that can't be read has its own.
#[test]
fn an_unreadable_file_has_an_object() {
    let clean = file("object-clean", &from_hex(P));
    let answer = stramashly(&["check", "--json", &clean, "no-such-file"], b"");
    let lines: Vec<&str> = answer.output.lines().collect();
    assert_eq!(lines.len(), 2);
    let begin = r#"{"file":"no-such-file","verdict":"error","reason":"No such file"#;
    assert!(lines[1].starts_with(begin), "{}", lines[1]);
    assert_eq!(answer.status, Some(4));
    assert_eq!(answer.messages.lines().count(), 1);
}

/// What goes to a file or a pipe has no colour.
#[test]
fn there_is_no_colour_in_a_pipe() {
    let clean = file("plain-clean", &from_hex(P));
    let answer = stramashly(&["check", &clean], b"");
    assert_eq!(answer.output, "race-free\n");
}

#[test]
fn an_empty_file_is_refused() {
    let empty = file("empty", b"");
    assert_eq!(
        stramashly(&["check", &empty], b""),
        good("refused 1 0\n", 3)
    );
    assert_eq!(stramashly(&["fill", &empty], b""), good("refused 1 0\n", 3));
    let words = ["check", "--hex", &empty];
    assert_eq!(stramashly(&words, b""), good("refused 1 0\n", 3));
}

#[test]
fn a_directory_without_tables_is_told() {
    let folder = scratch().join("directory-without-tables");
    fs::create_dir_all(&folder).unwrap();
    for words in [
        ["check", folder.to_str().unwrap()].as_slice(),
        &["check", "--hex", folder.to_str().unwrap()],
        &["derive", folder.to_str().unwrap(), "0", "1"],
    ] {
        let answer = stramashly(words, b"");
        assert_eq!((answer.output.as_str(), answer.status), ("", Some(4)));
        assert!(answer.messages.contains("directory"), "{}", answer.messages);
    }
}

#[test]
fn bad_hex_is_told() {
    for (text, part) in [
        ("000", "odd count"),
        ("00 0g", "'g' at place 4"),
        ("00\u{7}", "byte 0x07 at place 2"),
    ] {
        let answer = stramashly(&["check", "--hex", "-"], text.as_bytes());
        assert_eq!((answer.output.as_str(), answer.status), ("", Some(4)));
        assert!(answer.messages.contains(part), "{}", answer.messages);
    }
}

#[test]
fn bad_usage_is_told() {
    for words in [
        [].as_slice(),
        &["check"],
        &["guess", "a"],
        &["check", "--hxe", "a"],
        &["batch", "a"],
    ] {
        let answer = stramashly(words, b"");
        assert_eq!((answer.output.as_str(), answer.status), ("", Some(4)));
        assert!(answer.messages.contains("--help"), "{}", answer.messages);
    }
}

#[test]
fn help_and_version() {
    let help = stramashly(&["--help"], b"");
    assert_eq!((help.messages.as_str(), help.status), ("", Some(0)));
    assert!(help.output.contains("stramashly check examples/leak.table"));
    assert_eq!(stramashly(&["check", "--help"], b""), help);
    assert_eq!(stramashly(&["help"], b""), help);
    let fill = stramashly(&["help", "fill"], b"");
    assert!(fill.output.contains("stramashly fill --table"));
    assert!(fill.output.contains("-q, --quiet"), "{}", fill.output);
    assert!(!fill.output.contains("--sarif"), "{}", fill.output);
    // Every command has its lines.
    for name in [
        "check", "fill", "report", "derive", "accepts", "show", "explain", "draw", "edit", "batch",
        "summary", "help",
    ] {
        let of_name = stramashly(&["help", name], b"");
        assert!(
            of_name.output.contains(name) && of_name.status == Some(0),
            "{name}"
        );
    }
    let version = stramashly(&["--version"], b"");
    assert_eq!((version.messages.as_str(), version.status), ("", Some(0)));
    let lines: Vec<&str> = version.output.lines().collect();
    assert_eq!(lines[0], concat!("stramashly ", env!("CARGO_PKG_VERSION")));
    assert!(
        lines[1].starts_with("commit ") && lines[1].len() > 7,
        "{lines:?}"
    );
    assert!(lines[2].starts_with("library proved with "), "{lines:?}");
    assert_eq!(lines.len(), 3);
}

/// The largest table there is, with more bytes after it: the header decides
/// between refusals 2, 3 and 4, however long the file.
#[test]
fn a_longer_file_has_the_refusal_that_it_deserves() {
    let agents: Vec<[u16; 3]> = (0..32).map(|agent| [0, 0, agent]).collect();
    let rows = [Row::write(0); 128];
    let largest = Table::new(&agents, &rows).bytes();
    assert_eq!(
        stramashly(&["check", "-"], &largest),
        good("race-free\n", 0)
    );
    for more in [1, 2, 16, 100_000] {
        let mut longer = largest.clone();
        longer.resize(largest.len() + more, 0);
        let digits = hex(&longer);
        for (place, byte, answer) in [
            (0, 0, "refused 4 0\n"),
            (4, 4, "refused 2 0\n"),
            (7, 1, "refused 2 0\n"),
            (5, 33, "refused 3 0\n"),
            (6, 129, "refused 3 0\n"),
        ] {
            let mut changed = longer.clone();
            changed[place] = byte;
            let expected = good(answer, 3);
            assert_eq!(stramashly(&["check", "-"], &changed), expected);
            assert_eq!(stramashly(&["fill", "-"], &changed), expected);
            let digits = format!(
                "{}{byte:02X}{}",
                &digits[..2 * place],
                &digits[2 * place + 2..]
            );
            let words = ["check", "--hex", "-"];
            assert_eq!(stramashly(&words, digits.as_bytes()), expected);
        }
    }
}

/// The peak memory of a process that still runs, in KiB.
fn peak_memory(process: u32) -> usize {
    let status = fs::read_to_string(format!("/proc/{process}/status")).unwrap();
    let line = status.lines().find(|line| line.starts_with("VmHWM:"));
    let number = line.and_then(|line| line.split_whitespace().nth(1));
    number.unwrap().parse().unwrap()
}

#[test]
fn noise_is_refused_in_bounded_memory() {
    let mut random = Random::new(8);
    let noise: Vec<u8> = (0..1 << 20).map(|_| random.below(256) as u8).collect();
    let path = scratch().join("noise");
    // 100 MB, most of them a hole.
    fs::write(&path, &noise).unwrap();
    let file = OpenOptions::new().write(true).open(&path).unwrap();
    file.set_len(100_000_000).unwrap();
    let name = path.to_str().unwrap();
    assert_eq!(stramashly(&["check", name], b""), good("refused 2 0\n", 3));
    let answer = stramashly(&["check", "--hex", name], b"");
    assert_eq!((answer.output.as_str(), answer.status), ("", Some(4)));
    assert!(answer.messages.contains("is no hex digit"));
    fs::remove_file(path).unwrap();
}

#[test]
fn endless_digits_take_no_memory() {
    use std::io::Write;
    let mut program = program_in(&scratch(), &["check", "--hex", "-"])
        .spawn()
        .unwrap();
    let mut stdin = program.stdin.take().unwrap();
    for _ in 0..1000 {
        stdin.write_all(&[b'0'; 50_000]).unwrap();
    }
    let peak = peak_memory(program.id());
    assert!(peak < 10_000, "{peak} KiB after 50 MB of digits");
    drop(stdin);
    let output = program.wait_with_output().unwrap();
    assert_eq!(output.stdout, b"refused 2 0\n");
    assert_eq!(output.status.code(), Some(3));
}

#[test]
fn a_closed_pipe_is_quiet_and_keeps_the_status() {
    let clean = file("closed-clean", &from_hex(P));
    let cyclic = file("closed-cyclic", &from_hex(&p_ending("FFFF0000")));
    let mut words = vec!["check"];
    // More answers than any buffer holds; the last file has the highest status.
    words.extend([clean.as_str(); 2000]);
    words.push(&cyclic);
    let mut program = program_in(&scratch(), &words).spawn().unwrap();
    drop(program.stdout.take());
    let mut messages = String::new();
    let mut stderr = program.stderr.take().unwrap();
    stderr.read_to_string(&mut messages).unwrap();
    assert_eq!(
        messages,
        "stramashly: 2001 files: 2000 race-free, 1 cycle\n"
    );
    assert_eq!(program.wait().unwrap().code(), Some(2));
}

#[test]
fn a_full_disk_is_told() {
    let clean = file("full-clean", &from_hex(P));
    let full = OpenOptions::new().write(true).open("/dev/full").unwrap();
    let output = program_in(&scratch(), &["check", &clean])
        .stdout(Stdio::from(full))
        .output()
        .unwrap();
    assert_eq!(output.status.code(), Some(4));
    let messages = String::from_utf8(output.stderr).unwrap();
    assert!(messages.contains("can't write"), "{messages}");
}

#[test]
fn closed_standard_error_is_no_panic() {
    let null = File::open("/dev/null").unwrap();
    // Open for reading only, so that writing a message fails.
    let output = program_in(&scratch(), &["check", "no-such-file"])
        .stderr(Stdio::from(null))
        .output()
        .unwrap();
    assert_eq!(output.status.code(), Some(4));
}

/// Nothing is judged where there is nothing to read from, which isn't the
/// same as an empty file.
#[test]
fn closed_standard_input_is_told() {
    for words in [
        "check -",
        "check --hex -",
        "fill -",
        "explain -",
        "draw -",
        "batch",
    ] {
        let script = format!("\"$0\" {words} <&-");
        let output = Command::new("sh")
            .args(["-c", &script, env!("CARGO_BIN_EXE_stramashly")])
            .output()
            .unwrap();
        assert_eq!(output.status.code(), Some(4), "{words}");
        assert_eq!(output.stdout, b"", "{words}");
        let messages = String::from_utf8(output.stderr).unwrap();
        assert!(messages.contains("standard input is closed"), "{messages}");
    }
    let output = program_in(&scratch(), &["check", "-"])
        .stdin(Stdio::null())
        .output()
        .unwrap();
    assert_eq!(output.stdout, b"refused 1 0\n");
}
