//! Text and JSON lines in the place of a table.

mod common;

use common::*;
use std::fs;
use std::path::{Path, PathBuf};

fn examples() -> PathBuf {
    Path::new(env!("CARGO_MANIFEST_DIR")).join("../../examples")
}

/// The leak, as somebody writes it.
const LEAK: &str = "\
stramashly 1
agent producer = 0.0.0
agent consumer = 0.1.0
ref owner = 1 Uniform
ref flag = 3 Uniform
w0: producer write owner 0..4 non-private @ shaders/alloc.comp:41
w1: producer atomic-write flag 64..68 release queue-family {Uniform} rank 1 @ shaders/alloc.comp:44
    consumer atomic-read flag 64..68 acquire queue-family {Uniform} make-visible from w1
    consumer read owner 0..4 non-private from w0 @ shaders/alloc.comp:52:9
";

/// A file with this in it; its name.
fn file(name: &str, text: impl AsRef<[u8]>) -> String {
    fs::write(scratch().join(name), text).unwrap();
    name.to_string()
}

#[test]
fn every_example_goes_to_text_and_back() {
    let mut count = 0;
    for entry in fs::read_dir(examples()).unwrap() {
        let path = entry.unwrap().path();
        if path.extension().is_none_or(|ending| ending != "table") {
            continue;
        }
        let name = path.file_name().unwrap().to_str().unwrap();
        let table = fs::read(&path).unwrap();
        let fill = stramashly_in(&examples(), &["fill", name], b"").status;
        for option in ["--text", "--json-lines"] {
            let said = stramashly_in(&examples(), &["show", option, name], b"");
            if fill == Some(3) {
                assert_eq!((said.output.as_str(), said.status), ("", Some(3)));
                assert!(said.messages.contains("refused"), "{}", said.messages);
                continue;
            }
            assert_eq!(
                (said.messages.as_str(), said.status),
                ("", Some(0)),
                "{name}"
            );
            let text = file("back.txt", &said.output);
            let (made, messages, status) = bytes_in(&scratch(), &["make", &text]);
            assert_eq!((messages.as_str(), status), ("", Some(0)), "{name}");
            assert_eq!(made, table, "{name}");
            count += 1;
        }
    }
    assert!(count > 60, "{count}");
}

/// Each command answers a text as it does the table that is made of it.
#[test]
fn commands_take_text_in_place_of_a_table() {
    let text = file("leak.txt", LEAK);
    let (made, _, status) = bytes_in(&scratch(), &["make", &text]);
    assert_eq!(status, Some(0));
    let table = file("made.table", &made);
    let digits = stramashly(&["make", "--hex", &text], b"").output;
    assert_eq!(digits, format!("{}\n", tables::hex(&made)));
    for words in [
        "check FILE",
        "fill FILE",
        "report FILE",
        "derive FILE 3 8",
        "derive --words FILE 3 8",
        "accepts FILE 3 8 1 1028",
        "check --chains FILE",
    ] {
        let of = |file: &str| {
            let words: Vec<&str> = words.split(' ').collect();
            let words = words
                .iter()
                .map(|word| if *word == "FILE" { file } else { word });
            stramashly(&words.collect::<Vec<_>>(), b"")
        };
        let (mut of_text, of_table) = (of(&text), of(&table));
        // What is told besides begins with the file's name.
        of_text.messages = of_text.messages.replace(&text, &table);
        assert_eq!(of_text, of_table, "{words}");
    }
    let filled = |file| bytes_in(&scratch(), &["fill", "--table", file]).0;
    assert_eq!(filled("leak.txt"), filled("made.table"));
    // Standard input, and several files.
    assert_eq!(
        stramashly(&["check", "-"], LEAK.as_bytes()).output,
        "race 0 3 0\n"
    );
    let both = stramashly(&["check", &text, &table], b"");
    assert_eq!(
        both.output,
        "leak.txt: race 0 3 0\nmade.table: race 0 3 0\n"
    );
}

/// The tables of the page about text: each block that begins as one is taken.
#[test]
fn the_page_about_text_is_right() {
    let page = fs::read_to_string(examples().join("../docs/TEXT.md")).unwrap();
    let mut answers = Vec::new();
    let mut block = String::new();
    for line in page.lines().chain(["end"]) {
        match line.strip_prefix("    ") {
            Some(line) => block += &format!("{line}\n"),
            None if line.is_empty() => block.push('\n'),
            None => {
                if ["stramashly 1", "stramashly 3", "{"]
                    .iter()
                    .any(|begin| block.trim_start().starts_with(begin))
                {
                    let block = block.trim_start();
                    let made = stramashly(&["make", "--hex", "-"], block.as_bytes());
                    assert_eq!(
                        (made.messages.as_str(), made.status),
                        ("", Some(0)),
                        "{block}"
                    );
                    answers.push(stramashly(&["fill", "-"], block.as_bytes()).output);
                }
                block.clear();
            }
        }
    }
    let filled = "filled 65535 65535 1 0\n";
    let upload = "filled 65535 65535 65535 65535 0 65535 65535\n";
    assert_eq!(answers, [filled, upload, filled]);
    let leak = bytes_in(&examples(), &["make", "leak.txt"]).0;
    assert_eq!(leak, fs::read(examples().join("leak.table")).unwrap());
}

#[test]
fn places_and_names_are_told() {
    let text = file("places.txt", LEAK);
    let explained = stramashly(&["explain", &text], b"").output;
    for part in [
        "row 0 (w0, shaders/alloc.comp:41), producer's (agent 0) plain write of bytes 0 to 3 by `owner` (reference 1) in Uniform, non-private\n",
        "row 3 (shaders/alloc.comp:52:9), consumer's (agent 1) plain read",
        "the release in row 1 (w1, shaders/alloc.comp:44) has no make-available flag",
    ] {
        assert!(explained.contains(part), "{explained}");
    }
    let drawn = stramashly(&["draw", &text], b"").output;
    assert!(drawn.contains(">@ alloc.comp:41</text>"), "{drawn}");
    assert!(
        drawn.contains(">row 0 (w0, shaders/alloc.comp:41), producer&#39;s (agent 0) plain write")
    );
    assert!(drawn.contains(">0 w0:  plain write</text>"), "{drawn}");
    assert!(
        drawn.contains(">bytes 0\u{2013}3, owner, Uniform</text>"),
        "{drawn}"
    );
    let shown = stramashly(&["show", &text], b"").output;
    for part in [
        "agent 0 (producer): family 0",
        "  producer (0)  ",
        "  owner (1)  ",
        "  w0 ",
    ] {
        assert!(shown.contains(part), "{shown}");
    }
    assert!(drawn.contains(">agent 0, producer</text>"), "{drawn}");
    // Letters that have a meaning in a picture are written out.
    let odd = LEAK.replace("shaders/alloc.comp:41", "a<b&c.comp:3");
    let drawn = stramashly(&["draw", "-"], odd.as_bytes()).output;
    assert!(drawn.contains(">@ a&lt;b&amp;c.comp:3</text>"), "{drawn}");
    let page = stramashly(&["explain", "--html", &text], b"").output;
    assert!(page.contains("@ alloc.comp:41") && page.contains("shaders/alloc.comp:44"));
    let object = stramashly(&["check", "--json", &text], b"").output;
    let expected = r#"{"verdict":"race","first":0,"second":3,"byte":0,"places":[{"row":0,"label":"w0","at":"shaders/alloc.comp:41"},{"row":3,"at":"shaders/alloc.comp:52:9"}]}"#;
    assert_eq!(object, format!("{expected}\n"));
    // Names and places stay when the text is written anew, in either form.
    let lines = stramashly(&["show", "--json-lines", &text], b"").output;
    let lines = file("places.jsonl", lines);
    let again = stramashly(&["show", "--text", &lines], b"").output;
    assert_eq!(again, stramashly(&["show", "--text", &text], b"").output);
    assert!(
        again.contains("w1: producer atomic-write flag 64..68"),
        "{again}"
    );
}

#[test]
fn trouble_is_told_with_its_place_and_nothing_is_written() {
    let refused = LEAK.replace(
        "owner 0..4 non-private from w0",
        "owner 0..8 non-private from w0",
    );
    for (name, text, status, part) in [
        (
            "bad-1.txt",
            "stramashly 9\n",
            4,
            "bad-1.txt:1:12: expected a version",
        ),
        (
            "bad-2.txt",
            "stramashly 1\nagent a = 0.0\n",
            4,
            "bad-2.txt:2:11: expected a place",
        ),
        (
            "bad-3.jsonl",
            "{\"version\":1,\"agents\":[]}\n{]\n",
            4,
            "bad-3.jsonl:2:2: expected a key",
        ),
        (
            "bad-4.txt",
            &refused,
            3,
            "bad-4.txt:9:5: refused 9 3: A read's source",
        ),
        (
            "bad-5.table",
            "\0\0\0\u{4}\u{1}\0\0\0",
            4,
            "bad-5.table: neither text",
        ),
    ] {
        let name = file(name, text);
        let made = stramashly(&["make", &name], b"");
        assert_eq!(
            (made.output.as_str(), made.status),
            ("", Some(status)),
            "{name}"
        );
        assert!(made.messages.contains(part), "{}", made.messages);
        assert_eq!(made.messages.lines().count(), 1);
    }
    // A refused text gets the answer of its table.
    let check = stramashly(&["check", "bad-4.txt"], b"");
    assert_eq!(
        (check.output.as_str(), check.status),
        ("refused 9 3\n", Some(3))
    );
    for words in ["check", "explain", "show", "draw"] {
        let answer = stramashly(&[words, "bad-2.txt"], b"");
        assert_eq!(
            (answer.output.as_str(), answer.status),
            ("", Some(4)),
            "{words}"
        );
        assert!(
            answer.messages.contains("bad-2.txt:2:11: "),
            "{}",
            answer.messages
        );
    }
    let object = stramashly(&["check", "--json", "bad-2.txt"], b"").output;
    assert!(
        object.starts_with(r#"{"verdict":"error","reason":"2:11: expected"#),
        "{object}"
    );
    let missing = stramashly(&["make", "no-such-file"], b"");
    assert_eq!((missing.output.as_str(), missing.status), ("", Some(4)));
    let long = file(
        "long.txt",
        format!("stramashly 1\n{}", "#\n".repeat(600_000)),
    );
    let long = stramashly(&["check", &long], b"");
    assert_eq!(long.status, Some(4));
    assert!(
        long.messages.contains("more than 1048576 bytes"),
        "{}",
        long.messages
    );
}
