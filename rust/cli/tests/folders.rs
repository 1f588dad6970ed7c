//! A directory stands for every file in it: none is passed over in silence.

mod common;

use common::*;
use std::ffi::OsStr;
use std::fs;
use std::os::unix::ffi::OsStrExt;
use std::os::unix::fs::symlink;
use std::path::{Path, PathBuf};

fn bytes(digits: &str) -> Vec<u8> {
    let digits: String = digits.split_whitespace().collect();
    let pairs = (0..digits.len()).step_by(2);
    pairs
        .map(|at| u8::from_str_radix(&digits[at..at + 2], 16).unwrap())
        .collect()
}

fn example(name: &str) -> Vec<u8> {
    let folder = Path::new(env!("CARGO_MANIFEST_DIR")).join("../../examples");
    fs::read(folder.join(name)).unwrap()
}

/// An empty folder of this name.
fn fresh(name: &str) -> PathBuf {
    let folder = scratch().join(name);
    let _ = fs::remove_dir_all(&folder);
    fs::create_dir_all(&folder).unwrap();
    folder
}

#[test]
fn every_file_is_judged_whatever_its_name() {
    let folder = fresh("folder-of-all");
    fs::create_dir_all(folder.join("below")).unwrap();
    let digits: String = example("leak.table")
        .iter()
        .map(|byte| format!("{byte:02x}"))
        .collect();
    for (name, bytes) in [
        ("ok.table", bytes(P)),
        ("race.txt", example("leak.txt")),
        ("race.bin", example("leak.table")),
        ("RUN.TABLE", example("leak.table")),
        ("race.HEX", digits.clone().into_bytes()),
        ("below/race.hex", digits.into_bytes()),
        ("below/no ending", example("leak.table")),
        ("below/odd\nname", bytes(P)),
        ("picture.png", b"\x89PNG\r\n\x1a\n".to_vec()),
        ("empty", Vec::new()),
    ] {
        fs::write(folder.join(name), bytes).unwrap();
    }
    let expected = "RUN.TABLE: race 0 4 0\n\
                    below/no ending: race 0 4 0\n\
                    below/odd\nname: race-free\n\
                    below/race.hex: race 0 4 0\n\
                    empty: refused 1 0\n\
                    ok.table: race-free\n\
                    picture.png: refused 2 0\n\
                    race.HEX: race 0 4 0\n\
                    race.bin: race 0 4 0\n\
                    race.txt: race 0 4 0\n";
    for jobs in ["1", "4"] {
        let answer = stramashly_in(&folder, &["check", "-j", jobs, "."], b"");
        assert_eq!(answer.output.replace("./", ""), expected);
        assert_eq!(answer.status, Some(3));
        let summary = "stramashly: 10 files: 2 race-free, 6 race, 2 refused\n";
        assert_eq!(answer.messages, summary);
    }
    // A race under another name than a table's fails the gate.
    fs::remove_file(folder.join("picture.png")).unwrap();
    fs::remove_file(folder.join("empty")).unwrap();
    let quiet = stramashly_in(&folder, &["check", "--quiet", "."], b"");
    assert_eq!(
        (quiet.output.as_str(), quiet.messages.as_str(), quiet.status),
        ("", "", Some(1))
    );
}

#[test]
fn what_is_left_out_is_counted() {
    let folder = fresh("folder-with-more");
    fs::create_dir_all(folder.join(".hidden")).unwrap();
    fs::create_dir_all(folder.join("below")).unwrap();
    fs::write(folder.join("a.table"), bytes(P)).unwrap();
    fs::write(folder.join(".b.table"), example("leak.table")).unwrap();
    fs::write(folder.join(".hidden/c.table"), example("leak.table")).unwrap();
    symlink("a.table", folder.join("linked")).unwrap();
    symlink("below", folder.join("around")).unwrap();
    symlink("/dev/null", folder.join("null")).unwrap();
    let answer = stramashly_in(&folder, &["check", "."], b"");
    assert_eq!(answer.output, "./a.table: race-free\n./linked: race-free\n");
    let expected = "stramashly: 2 files: 2 race-free\n\
                    stramashly: left out: 2 names that begin with a dot, 1 link to a directory, \
                    1 that is no regular file\n";
    assert_eq!(
        (answer.messages.as_str(), answer.status),
        (expected, Some(0))
    );
    // Objects have it beside them too.
    let answer = stramashly_in(&folder, &["check", "--json", "."], b"");
    assert!(
        answer.messages.contains("left out: 2 names"),
        "{}",
        answer.messages
    );
    // A link that leads nowhere is a file that can't be read.
    symlink("nowhere", folder.join("z")).unwrap();
    let answer = stramashly_in(&folder, &["check", "."], b"");
    assert_eq!(answer.status, Some(4));
    assert!(
        answer.messages.contains("./z: No such file"),
        "{}",
        answer.messages
    );
}

#[test]
fn only_narrows_and_is_counted() {
    let folder = fresh("folder-narrowed");
    fs::create_dir_all(folder.join("week1")).unwrap();
    fs::write(folder.join("a.table"), bytes(P)).unwrap();
    fs::write(folder.join("notes.md"), "# Notes").unwrap();
    fs::write(folder.join("week1/b.table"), bytes(P)).unwrap();
    let answer = stramashly_in(&folder, &["check", "--only", "*.table", "."], b"");
    assert_eq!(
        answer.output,
        "./a.table: race-free\n./week1/b.table: race-free\n"
    );
    assert_eq!(answer.status, Some(0));
    assert!(answer
        .messages
        .contains("left out: 1 file that --only leaves out"));
    let answer = stramashly_in(&folder, &["check", "--only=week*/*", "."], b"");
    assert_eq!(answer.output, "./week1/b.table: race-free\n");
    assert!(
        answer.messages.contains("1 file: 1 race-free"),
        "{}",
        answer.messages
    );
    let answer = stramashly_in(&folder, &["check", "--only", "*.hex", "."], b"");
    assert_eq!(answer.status, Some(4));
    assert!(
        answer.messages.contains("is one of --only"),
        "{}",
        answer.messages
    );
    // A file that is named is taken all the same.
    let answer = stramashly_in(&folder, &["check", "--only", "*.hex", "a.table"], b"");
    assert_eq!(
        (answer.output.as_str(), answer.status),
        ("race-free\n", Some(0))
    );
    for words in [
        &["check", "--only"][..],
        &["check", "--only", "a[", "."],
        &["draw", "--only", "*", "a.table"],
    ] {
        assert_eq!(
            stramashly_in(&folder, words, b"").status,
            Some(4),
            "{words:?}"
        );
    }
}

#[test]
fn what_is_nearly_text_is_told_before_its_refusal() {
    for (text, part) in [
        ("Stramashly 1\n", "first words are `stramashly`"),
        ("STRAMASHLY 2", "first words are `stramashly`"),
        ("[{\"version\":1}]", "JSON array"),
        ("\"a\"", "JSON"),
        ("0000000401000000", "hex digits"),
        ("# Notes\n", "not a table's"),
    ] {
        let answer = stramashly(&["check", "-"], text.as_bytes());
        assert!(answer.output.starts_with("refused "), "{text}");
        assert_eq!(answer.status, Some(3));
        assert!(
            answer.messages.contains(part),
            "{text}: {}",
            answer.messages
        );
    }
    // Bytes that are no text look like nothing, and a table is none of these.
    for bytes in [&[0xFFu8, 0][..], &[], &[0, 0, 0, 4, 9, 0, 0, 0]] {
        let answer = stramashly(&["check", "-"], bytes);
        assert_eq!((answer.messages.as_str(), answer.status), ("", Some(3)));
    }
}

#[test]
fn names_come_from_a_list() {
    let folder = fresh("folder-listed");
    fs::write(folder.join("a b.table"), bytes(P)).unwrap();
    fs::write(folder.join("line\nend"), example("leak.table")).unwrap();
    let list = b"a b.table\0line\nend\0";
    for command in ["check", "report", "summary"] {
        let answer = stramashly_in(&folder, &[command, "--files0-from", "-"], list);
        assert_eq!(answer.status, Some(1), "{command}: {}", answer.messages);
    }
    fs::write(folder.join("list"), list).unwrap();
    let answer = stramashly_in(&folder, &["check", "--files0-from", "list"], b"");
    assert_eq!(
        answer.output,
        "a b.table: race-free\nline\nend: race 0 4 0\n"
    );
    for (words, input, part) in [
        (&["check", "--files0-from", "-"][..], &b""[..], "no names"),
        (&["check", "--files0-from", "-"], b"-\0", "its own list"),
        (
            &["check", "--files0-from", "none"],
            b"",
            "none: No such file",
        ),
        (&["check", "--files0-from", "-", "-"], b"", "twice"),
        (
            &["summary", "--files0-from", "none"],
            b"",
            "none: No such file",
        ),
        (&["draw", "--files0-from", "list"], b"", "only check, fill"),
        (
            &["show", "--text", "--files0-from", "list"],
            b"",
            "takes one",
        ),
    ] {
        let answer = stramashly_in(&folder, words, input);
        assert_eq!(answer.status, Some(4), "{words:?}");
        assert!(
            answer.messages.contains(part),
            "{words:?}: {}",
            answer.messages
        );
    }
}

/// A name that is no text is shown as well as may be, and whole in digits.
#[test]
fn a_name_that_is_no_text_can_be_traced_back() {
    let folder = fresh("folder-of-bytes");
    let name = OsStr::from_bytes(b"a\xFF.table");
    if fs::write(folder.join(name), bytes(P)).is_err() {
        // This file system takes no such name.
        return;
    }
    let answer = stramashly_in(&folder, &["check", "--json", "."], b"");
    let expected = "{\"fileBytes\":\"2E2F61FF2E7461626C65\",\"file\":\"./a\u{FFFD}.table\",\"verdict\":\"race-free\"}\n";
    assert_eq!((answer.output.as_str(), answer.status), (expected, Some(0)));
}
