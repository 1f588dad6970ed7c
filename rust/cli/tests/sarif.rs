//! `check --sarif`: the log has the shape of SARIF 2.1.0, and says what check
//! says, at the places that are known.

mod common;

use common::*;
use std::fs;
use std::path::{Path, PathBuf};
use text::json::{parse, Node, Value};

fn examples() -> PathBuf {
    Path::new(env!("CARGO_MANIFEST_DIR")).join("../../examples")
}

/// What a property of an object is: by the schema of SARIF 2.1.0, as far as the
/// log goes. `*` begins a list, `!` one that must be there.
const SCHEMA: [(&str, &[(&str, &str)]); 21] = [
    (
        "log",
        &[("$schema", "uri"), ("!version", "2.1.0"), ("!runs", "*run")],
    ),
    (
        "run",
        &[
            ("!tool", "tool"),
            ("invocations", "*invocation"),
            ("columnKind", "columns"),
            ("results", "*result"),
        ],
    ),
    ("tool", &[("!driver", "driver")]),
    (
        "driver",
        &[("!name", "text"), ("version", "text"), ("rules", "*rule")],
    ),
    (
        "rule",
        &[
            ("!id", "text"),
            ("name", "text"),
            ("shortDescription", "message"),
            ("defaultConfiguration", "configuration"),
        ],
    ),
    ("configuration", &[("level", "level")]),
    (
        "invocation",
        &[
            ("!executionSuccessful", "flag"),
            ("toolExecutionNotifications", "*notification"),
        ],
    ),
    (
        "notification",
        &[
            ("!message", "message"),
            ("level", "level"),
            ("locations", "*location"),
        ],
    ),
    (
        "result",
        &[
            ("!message", "message"),
            ("!ruleId", "text"),
            ("ruleIndex", "number"),
            ("level", "level"),
            ("!locations", "*location"),
            ("relatedLocations", "*location"),
            ("!partialFingerprints", "prints"),
            ("fixes", "*fix"),
            ("properties", "properties"),
        ],
    ),
    ("prints", &[("!stramashly/v1", "print")]),
    (
        "fix",
        &[("description", "message"), ("!artifactChanges", "*change")],
    ),
    (
        "change",
        &[
            ("!artifactLocation", "artifact"),
            ("!replacements", "*replacement"),
        ],
    ),
    (
        "replacement",
        &[("!deletedRegion", "region"), ("insertedContent", "content")],
    ),
    ("content", &[("binary", "text")]),
    ("message", &[("!text", "text")]),
    (
        "location",
        &[
            ("id", "number"),
            ("physicalLocation", "physical"),
            ("logicalLocations", "*logical"),
            ("message", "message"),
        ],
    ),
    ("logical", &[("name", "text")]),
    (
        "physical",
        &[("!artifactLocation", "artifact"), ("region", "region")],
    ),
    ("artifact", &[("!uri", "uri")]),
    (
        "region",
        &[
            ("startLine", "line"),
            ("startColumn", "line"),
            ("byteOffset", "number"),
            ("byteLength", "number"),
        ],
    ),
    // Whoever writes a log may put anything there.
    (
        "properties",
        &[
            ("table", "text"),
            ("!answer", "text"),
            ("!proved", "flag"),
            ("edits", "*text"),
        ],
    ),
];

fn validate(node: &Node, kind: &str) {
    let has = |is_good: bool| assert!(is_good, "{kind}: {node:?}");
    let text = |node: &Node| match &node.value {
        Value::Text(text) => text.clone(),
        _ => panic!("{kind}: {node:?}"),
    };
    let count = || match &node.value {
        Value::Number(digits) => digits.parse::<u64>().unwrap(),
        _ => panic!("{kind}: {node:?}"),
    };
    match kind {
        "text" => has(!text(node).is_empty()),
        "2.1.0" => has(text(node) == "2.1.0"),
        "columns" => has(text(node) == "unicodeCodePoints"),
        "level" => has(["none", "note", "warning", "error"].contains(&text(node).as_str())),
        "uri" => has(text(node)
            .bytes()
            .all(|byte| byte.is_ascii_alphanumeric() || b"/-._~%:".contains(&byte))),
        "print" => has(text(node).len() == 16),
        "flag" => has(matches!(&node.value, Value::Word(word) if word != "null")),
        "number" => drop(count()),
        "line" => has(count() > 0),
        _ => validate_object(node, kind),
    }
}

fn validate_object(node: &Node, kind: &str) {
    if let Some(kind) = kind.strip_prefix('*') {
        let Value::List(nodes) = &node.value else {
            panic!("{kind}: {node:?}");
        };
        return nodes.iter().for_each(|node| validate(node, kind));
    }
    let Value::Object(members) = &node.value else {
        panic!("{kind}: {node:?}");
    };
    let (_, properties) = SCHEMA.iter().find(|(name, _)| *name == kind).unwrap();
    for member in members {
        let property = properties
            .iter()
            .find(|(key, _)| key.trim_start_matches('!') == member.key);
        let (_, kind) = property.unwrap_or_else(|| panic!("{kind} has no {}", member.key));
        validate(&member.node, kind);
    }
    for (key, _) in *properties {
        if let Some(key) = key.strip_prefix('!') {
            assert!(
                members.iter().any(|member| member.key == key),
                "{kind} lacks {key}"
            );
        }
    }
}

/// The value under keys and places of lists.
fn under<'a>(node: &'a Node, path: &str) -> &'a Node {
    path.split('.').fold(node, |node, step| match &node.value {
        Value::Object(members) => {
            let member = members.iter().find(|member| member.key == step);
            &member.unwrap_or_else(|| panic!("no {step} in {path}")).node
        }
        Value::List(nodes) => &nodes[step.parse::<usize>().unwrap()],
        _ => panic!("{path}"),
    })
}

fn word(node: &Node, path: &str) -> String {
    match &under(node, path).value {
        Value::Text(text) | Value::Number(text) | Value::Word(text) => text.clone(),
        other => panic!("{path}: {other:?}"),
    }
}

fn results(log: &Node) -> &[Node] {
    match &under(log, "runs.0.results").value {
        Value::List(results) => results,
        other => panic!("{other:?}"),
    }
}

fn log(folder: &Path, words: &[&str], input: &[u8]) -> (Node, Answer) {
    let mut all = vec!["check", "--sarif"];
    all.extend(words);
    let answer = stramashly_in(folder, &all, input);
    assert_eq!(answer.output.lines().count(), 1);
    let log = parse(1, answer.output.trim_end()).unwrap();
    validate(&log, "log");
    (log, answer)
}

/// Every example: the first result is check's answer, and there is one unless
/// the table is race-free.
#[test]
fn results_are_the_answers() {
    for entry in fs::read_dir(examples()).unwrap() {
        let name = entry.unwrap().file_name().into_string().unwrap();
        if !name.ends_with(".table") && !name.ends_with(".txt") {
            continue;
        }
        let check = stramashly_in(&examples(), &["check", &name], b"");
        let (log, answer) = log(&examples(), &[&name], b"");
        assert_eq!(
            (answer.status, answer.messages.as_str()),
            (check.status, "")
        );
        let line = check.output.trim_end();
        match results(&log).first() {
            None => assert_eq!(line, "race-free", "{name}"),
            Some(first) => {
                assert_eq!(word(first, "properties.answer"), line);
                assert_eq!(word(first, "properties.proved"), "true");
                let rule = word(first, "ruleId");
                assert_eq!(line.split(' ').next(), Some(&*rule));
                let index = word(first, "ruleIndex");
                let id = format!("runs.0.tool.driver.rules.{index}.id");
                assert_eq!(word(&log, &id), rule);
            }
        }
        assert_eq!(
            word(&log, "runs.0.invocations.0.executionSuccessful"),
            "true"
        );
    }
}

#[test]
fn places_are_those_of_the_program_the_text_or_the_bytes() {
    let (log_, _) = log(&examples(), &["leak.txt"], b"");
    let results_ = results(&log_);
    assert_eq!(results_.len(), 2);
    let place = "locations.0.physicalLocation";
    assert_eq!(
        word(&results_[0], &format!("{place}.artifactLocation.uri")),
        "alloc.comp"
    );
    assert_eq!(
        word(&results_[0], &format!("{place}.region.startLine")),
        "41"
    );
    let related = "relatedLocations.0.physicalLocation";
    assert_eq!(
        word(&results_[0], &format!("{related}.artifactLocation.uri")),
        "use.comp"
    );
    assert_eq!(word(&results_[1], "properties.answer"), "race 1 5 16");
    assert_eq!(word(&results_[1], "properties.proved"), "false");
    // Of bytes it is the row's bytes.
    let (log_, _) = log(&examples(), &["leak.table"], b"");
    let first = &results(&log_)[0];
    assert_eq!(
        word(first, &format!("{place}.artifactLocation.uri")),
        "leak.table"
    );
    assert_eq!(word(first, &format!("{place}.region.byteOffset")), "20");
    assert_eq!(word(first, &format!("{related}.region.byteOffset")), "84");
    // Of a text without places it is the text's line.
    let leak = fs::read_to_string(examples().join("leak.txt")).unwrap();
    let lines = leak
        .lines()
        .map(|line| line.split('@').next().unwrap().trim_end());
    let bare: Vec<&str> = lines.collect();
    fs::write(scratch().join("bare leak.txt"), bare.join("\n")).unwrap();
    let (log_, _) = log(&scratch(), &["bare leak.txt"], b"");
    let first = &results(&log_)[0];
    assert_eq!(
        word(first, &format!("{place}.artifactLocation.uri")),
        "bare%20leak.txt"
    );
    assert_eq!(word(first, &format!("{place}.region.startLine")), "9");
    // Standard input has no name.
    let (log_, _) = log(&scratch(), &["-"], bare.join("\n").as_bytes());
    let first = &results(&log_)[0];
    assert_eq!(word(first, "locations.0.logicalLocations.0.name"), "row 0");
}

#[test]
fn several_files_are_one_log() {
    let names = [
        "leak.table",
        "p.table",
        "too-long.table",
        "overwritten.table",
        "p-initial.table",
    ];
    let (one, answer) = log(&examples(), &names, b"");
    assert_eq!(answer.status, Some(3));
    let answers: Vec<String> = results(&one)
        .iter()
        .map(|result| word(result, "properties.answer"))
        .collect();
    let expected = [
        "race 0 4 0",
        "race 1 5 16",
        "refused 7 1",
        "overwritten 4 1 0",
        "cycle 2 rows 0 3 edges 1 4",
    ];
    assert_eq!(answers, expected);
    let many = stramashly_in(&examples(), &["check", "--sarif", "-j", "3", "."], b"");
    let alone = stramashly_in(&examples(), &["check", "--sarif", "."], b"");
    assert_eq!(many, alone);
    validate(&parse(1, many.output.trim_end()).unwrap(), "log");
}

#[test]
fn what_cant_be_read_is_a_notification() {
    fs::write(scratch().join("sarif-bad.txt"), "stramashly 1\nagent\n").unwrap();
    let (log_, answer) = log(&scratch(), &["sarif-bad.txt", "no-such-file"], b"");
    assert_eq!(answer.status, Some(4));
    assert!(answer
        .messages
        .contains("sarif-bad.txt:2:6: expected a name"));
    assert_eq!(
        word(&log_, "runs.0.invocations.0.executionSuccessful"),
        "false"
    );
    let first = "runs.0.invocations.0.toolExecutionNotifications.0";
    let region = "locations.0.physicalLocation.region.startLine";
    assert_eq!(word(&log_, &format!("{first}.{region}")), "2");
    assert!(results(&log_).is_empty());
}

/// Of a race whose flag was dropped: a fix that does what it says when it is made.
#[test]
fn fixes_mend_the_table() {
    let (log, answer) = log(&examples(), &["leak.table", "leak.txt"], b"");
    assert_eq!(answer.status, Some(1));
    let first = &results(&log)[0];
    assert_eq!(word(first, "properties.edits.0"), "row 2 flags 3");
    let fix = under(first, "fixes.0");
    assert_eq!(
        word(fix, "description.text"),
        "row 2 flags 3; then nothing races"
    );
    let replacement = under(fix, "artifactChanges.0.replacements.0");
    assert_eq!(
        word(fix, "artifactChanges.0.artifactLocation.uri"),
        "leak.table"
    );
    assert_eq!(word(replacement, "insertedContent.binary"), "Aw==");
    assert_eq!(word(replacement, "deletedRegion.byteLength"), "1");
    let mut table = fs::read(examples().join("leak.table")).unwrap();
    let at: usize = word(replacement, "deletedRegion.byteOffset")
        .parse()
        .unwrap();
    table[at] = 3;
    assert_eq!(stramashly(&["check", "-"], &table).output, "race-free\n");
    // The other race of the table has no edits of its own, and that of a text no bytes.
    let of = |file: &str| -> Vec<&Node> {
        let all = results(&log).iter();
        all.filter(|result| word(result, "properties.table") == file)
            .collect()
    };
    assert_eq!(of("leak.table").len(), 2);
    let members = |node: &Node| match &node.value {
        Value::Object(members) => members.iter().map(|member| member.key.clone()).collect(),
        _ => Vec::new(),
    };
    assert!(!members(of("leak.table")[1]).contains(&"fixes".to_string()));
    assert!(!members(of("leak.txt")[0]).contains(&"fixes".to_string()));
    assert_eq!(
        word(of("leak.txt")[0], "properties.edits.0"),
        "row 2 flags 3"
    );
}

/// However many threads work, the log is the same.
#[test]
fn the_log_doesnt_depend_on_threads() {
    let of = |jobs: &str| stramashly_in(&examples(), &["check", "--sarif", "-j", jobs, "."], b"");
    let one = of("1");
    assert_eq!(of("4"), one);
    assert_eq!(
        stramashly_in(&examples(), &["check", "--sarif", "."], b""),
        one
    );
}
