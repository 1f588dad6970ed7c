//! `--json`: one object a line, with the members of the plain line.

mod common;

use common::*;
use std::fs;
use std::path::{Path, PathBuf};

fn examples() -> PathBuf {
    Path::new(env!("CARGO_MANIFEST_DIR")).join("../../examples")
}

/// A command, its object and its status.
const OBJECTS: [(&str, &str, i32); 19] = [
    ("check p.table", r#"{"verdict":"race-free"}"#, 0),
    (
        "check leak.table",
        r#"{"verdict":"race","first":0,"second":4,"byte":0}"#,
        1,
    ),
    (
        "check overwritten.table",
        r#"{"verdict":"overwritten","reader":4,"writer":1,"byte":0}"#,
        2,
    ),
    (
        "check p-initial.table",
        r#"{"verdict":"cycle","rows":[0,3],"edges":[1,4]}"#,
        2,
    ),
    (
        "check too-long.table",
        r#"{"verdict":"refused","number":7,"row":1,"name":"EXTENT"}"#,
        3,
    ),
    (
        "fill fill.table",
        r#"{"verdict":"filled","sources":[65535,65535,1,0]}"#,
        0,
    ),
    (
        "fill empty.table",
        r#"{"verdict":"filled","sources":[]}"#,
        0,
    ),
    ("fill fill-none.table", r#"{"verdict":"none"}"#, 2),
    (
        "fill fill-race.table",
        r#"{"verdict":"race","first":0,"second":4,"byte":0}"#,
        1,
    ),
    (
        "report leak.table",
        r#"{"verdict":"report","conflicting":3,"mutual":1,"ordered":0,"racing":2,"share":0.6666666666666666}"#,
        1,
    ),
    (
        "report p.table",
        r#"{"verdict":"report","conflicting":2,"mutual":1,"ordered":1,"racing":0,"share":0.0}"#,
        0,
    ),
    (
        "report empty.table",
        r#"{"verdict":"report","conflicting":0,"mutual":0,"ordered":0,"racing":0,"share":null}"#,
        0,
    ),
    (
        "report p-initial.table",
        r#"{"verdict":"cycle","rows":[0,3],"edges":[1,4]}"#,
        2,
    ),
    ("derive p.table 1 4", r#"{"verdict":"program-order"}"#, 0),
    (
        "derive p.table 3 8",
        r#"{"verdict":"chain","classes":1,"steps":[1028,519,1544]}"#,
        0,
    ),
    ("derive p.table 8 3", r#"{"verdict":"not-before"}"#, 1),
    (
        "derive p.table 8 8",
        r#"{"verdict":"refused","number":12,"row":0,"name":"MOMENTS"}"#,
        3,
    ),
    (
        "accepts p.table 1 4 program-order",
        r#"{"verdict":"accepted"}"#,
        0,
    ),
    ("accepts p.table 1 4 1", r#"{"verdict":"not-accepted"}"#, 1),
];

#[test]
fn each_answer_is_an_object() {
    for (words, object, status) in OBJECTS {
        let mut words: Vec<&str> = words.split(' ').collect();
        words.push("--json");
        let answer = stramashly_in(&examples(), &words, b"");
        assert_eq!(answer.output, format!("{object}\n"), "{words:?}");
        let rest = (answer.messages.as_str(), answer.status);
        assert_eq!(rest, ("", Some(status)), "{words:?}");
    }
}

#[test]
fn several_files_have_their_names() {
    // A name that JSON needs escapes for.
    let odd = scratch().join("json \"odd\\\n\u{1}\u{e4}.table");
    fs::copy(examples().join("p.table"), &odd).unwrap();
    let name = odd.file_name().unwrap().to_str().unwrap();
    let plain = scratch().join("json-plain.table");
    fs::copy(examples().join("leak.table"), plain).unwrap();
    let words = ["--json", "check", name, "no-such-file", "json-plain.table"];
    let answer = stramashly(&words, b"");
    let expected = [
        r#"{"file":"json \"odd\\\u000a\u0001ä.table","verdict":"race-free"}"#,
        r#"{"file":"no-such-file","verdict":"error","reason":"No such file or directory (os error 2)"}"#,
        r#"{"file":"json-plain.table","verdict":"race","first":0,"second":4,"byte":0}"#,
    ];
    let lines: Vec<&str> = answer.output.lines().collect();
    assert_eq!(lines, expected);
    // What can't be read is told on standard error too.
    assert_eq!(answer.status, Some(4));
    assert!(answer.messages.contains("no-such-file"));
}

/// An explanation's members: check's, what is missing, and the changes with
/// their edits and the answer after each.
#[test]
fn an_explanation_is_an_object() {
    let leak = format!("{}/../../examples/leak.table", env!("CARGO_MANIFEST_DIR"));
    let answer = stramashly(&["explain", "--json", &leak], b"");
    assert_eq!(answer.status, Some(1));
    let object = answer.output;
    let begin = r#"{"verdict":"race","first":0,"second":4,"byte":0,"nearest":{"rule":"L3","before":0,"after":4,"lacks":["byte 0 of agent 0's write in row 0 is never made available to agent 1"]},"changes":[{"reasons":["#;
    assert!(object.starts_with(begin), "{object}");
    let change = r#","edit":"row 2 flags 3","answer":"race-free","outcome":"race-free","left":0,"orders":true,"has-room":true,"glsl":["row 2 `atomicStore("#;
    assert!(object.contains(change), "{object}");
    let other = r#""answer":"race 1 5 16","outcome":"other races","left":1,"orders":true"#;
    assert!(object.contains(other), "{object}");
    assert!(object.contains(r#""orders":false"#), "{object}");
    assert_eq!(object.lines().count(), 1);
    let free = stramashly(&["explain", "--json", "--hex", "-"], P.as_bytes()).output;
    let begin =
        r#"{"verdict":"race-free","words":["2 pairs of rows conflict, and each is ordered:","#;
    assert!(free.starts_with(begin), "{free}");
    let unread = stramashly(&["explain", "--json", "no-such-file"], b"");
    assert!(unread.output.starts_with(r#"{"verdict":"error","#));
}

#[test]
fn bad_usage_is_told() {
    for words in [
        ["show", "--json", "a"].as_slice(),
        &["explain", "--json", "--html", "a"],
        &["explain", "--json", "--all", "a"],
        &["draw", "--json", "a"],
        &["fill", "--table", "--json", "a"],
    ] {
        let answer = stramashly(words, b"");
        assert_eq!((answer.output.as_str(), answer.status), ("", Some(4)));
        assert!(answer.messages.contains("--help"), "{}", answer.messages);
    }
}
