//! `completion`: the scripts are taken by their shells, where these are there,
//! and bash completes with its own.

mod common;

use common::*;
use std::fs;
use std::process::Command;

/// What bash offers for the last of these words.
fn offered(words: &str) -> Vec<String> {
    let script = stramashly(&["completion", "bash"], b"").output;
    // A file of its own: the other test writes its script at the same time.
    let path = scratch().join("offered.bash");
    fs::write(&path, script).unwrap();
    let last = words.split(' ').count() - 1;
    let words: Vec<String> = words.split(' ').map(|word| format!("'{word}'")).collect();
    let line = format!(
        "source '{}'; COMP_WORDS=({}); COMP_CWORD={last}; _stramashly; printf '%s\\n' \"${{COMPREPLY[@]}}\"",
        path.display(),
        words.join(" ")
    );
    let output = Command::new("bash").args(["-c", &line]).output().unwrap();
    assert!(output.status.success());
    assert_eq!(String::from_utf8(output.stderr).unwrap(), "");
    let text = String::from_utf8(output.stdout).unwrap();
    text.lines()
        .filter(|line| !line.is_empty())
        .map(str::to_string)
        .collect()
}

#[test]
fn bash_completes_commands_options_and_shells() {
    assert_eq!(offered("stramashly ch"), ["check"]);
    assert_eq!(offered("stramashly de"), ["derive"]);
    assert_eq!(offered("stramashly --v"), ["--version"]);
    assert_eq!(offered("stramashly check --s"), ["--sarif"]);
    assert_eq!(
        offered("stramashly check run.table --j"),
        ["--json", "--jobs"]
    );
    assert_eq!(
        offered("stramashly show --"),
        [
            "--hex",
            "--text",
            "--json-lines",
            "--jobs",
            "--only",
            "--files0-from"
        ]
    );
    assert_eq!(offered("stramashly -j 4 fill --t"), ["--table", "--then"]);
    assert_eq!(offered("stramashly --then rows check --s"), ["--sarif"]);
    assert_eq!(offered("stramashly completion z"), ["zsh"]);
    assert_eq!(offered("stramashly help re"), ["report"]);
    // Files are the shell's own matter, and so is a number.
    assert!(offered("stramashly check ru").is_empty());
    assert!(offered("stramashly check -j 4").is_empty());
    assert!(offered("stramashly check --then ch").is_empty());
    for option in [
        "--only",
        "--files0-from",
        "--baseline",
        "--against",
        "--pages",
    ] {
        assert!(offered(&format!("stramashly summary {option} ch")).is_empty());
    }
    assert_eq!(offered("stramashly summary --b"), ["--baseline"]);
}

#[test]
fn scripts_are_taken_by_their_shells() {
    for (shell, option) in [("bash", "-n"), ("zsh", "-n"), ("fish", "--no-execute")] {
        let script = stramashly(&["completion", shell], b"");
        assert_eq!((script.messages.as_str(), script.status), ("", Some(0)));
        let path = scratch().join(format!("completion.{shell}"));
        fs::write(&path, script.output).unwrap();
        // Not every machine has them all.
        if let Ok(output) = Command::new(shell).arg(option).arg(&path).output() {
            assert!(output.status.success(), "{shell}: {output:?}");
        }
    }
    let bad = stramashly(&["completion", "tcsh"], b"");
    assert_eq!((bad.output.as_str(), bad.status), ("", Some(4)));
    assert!(
        bad.messages.contains("bash, zsh or fish"),
        "{}",
        bad.messages
    );
}
