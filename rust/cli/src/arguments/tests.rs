//! The words of the command line, taken apart.

use super::*;
use crate::question::Claim;

fn parsed(line: &str) -> Result<Command, String> {
    parse(line.split_whitespace().map(OsString::from))
}

fn request(task: Task, is_hex: bool, names: &[&str]) -> Result<Command, String> {
    let names = names.iter().map(OsString::from).collect();
    Ok(Command::Files(Request {
        task,
        is_hex,
        is_json: false,
        is_sarif: false,
        is_quiet: false,
        has_chains: false,
        jobs: 1,
        names,
        then: None,
        only: None,
        listed: None,
        is_forced: false,
    }))
}

#[test]
fn commands_and_options_are_told_apart() {
    assert_eq!(parsed("--help"), Ok(Command::Help));
    assert_eq!(parsed("check -h"), Ok(Command::Help));
    assert_eq!(parsed("--version"), Ok(Command::Version));
    let batch = |is_json, jobs| {
        Ok(Command::Batch(Batch {
            is_json,
            jobs,
            ..Batch::default()
        }))
    };
    assert_eq!(parsed("batch"), batch(false, 1));
    assert_eq!(parsed("batch --json -j 3"), batch(true, 3));
    assert_eq!(parsed("help"), Ok(Command::Help));
    assert_eq!(parsed("help fill"), Ok(Command::HelpOf("fill".into())));
    let check = || Task::Judge(Question::Check);
    let fill = || Task::Judge(Question::Fill);
    assert_eq!(parsed("check a -"), request(check(), false, &["a", "-"]));
    assert_eq!(parsed("--hex fill a"), request(fill(), true, &["a"]));
    assert_eq!(parsed("fill a --hex"), request(fill(), true, &["a"]));
    assert_eq!(
        parsed("check -- --hex"),
        request(check(), false, &["--hex"])
    );
}

#[test]
fn questions_about_moments_have_one_file() {
    let derive = Task::Judge(Question::Derive {
        first: 3,
        second: 8,
    });
    assert_eq!(parsed("derive a 3 8"), request(derive, false, &["a"]));
    let claim = Claim::Chain {
        classes: 1,
        steps: vec![1028],
    };
    let accepts = Task::Judge(Question::Accepts {
        first: 3,
        second: 4,
        claim,
    });
    assert_eq!(
        parsed("accepts --hex - 3 4 1 1028"),
        request(accepts, true, &["-"])
    );
}

#[test]
fn answers_in_json_are_asked_for() {
    for line in ["check --json a", "--json derive a 3 8", "fill a b --json"] {
        let Ok(Command::Files(request)) = parsed(line) else {
            panic!("{line}");
        };
        assert!(request.is_json && !request.is_hex, "{line}");
    }
}

/// Chains go where they play a part; where the library takes none, the
/// option isn't passed over.
#[test]
fn chains_are_asked_for_or_told() {
    for line in [
        "check --chains a",
        "fill --table --chains a",
        "report a --chains",
        "--chains explain a",
        "explain --html --chains a",
        "draw --chains a",
    ] {
        match parsed(line) {
            Ok(Command::Files(request)) => assert!(request.has_chains, "{line}"),
            other => panic!("{line}: {other:?}"),
        }
    }
    assert!(parsed("batch --chains").is_ok());
    for line in [
        "show --chains a",
        "derive --chains a 3 8",
        "edit --chains a",
    ] {
        assert!(parsed(line).is_err(), "{line}");
    }
}

#[test]
fn threads_and_quiet_are_asked_for() {
    for line in [
        "check -j 4 -q a",
        "check a -j4 --quiet",
        "--jobs=4 -q check a",
    ] {
        let Ok(Command::Files(request)) = parsed(line) else {
            panic!("{line}");
        };
        assert_eq!((request.jobs, request.is_quiet), (4, true), "{line}");
    }
}

#[test]
fn tables_are_made_of_one_file() {
    let filled = request(Task::Make(Making::Filled), false, &["a"]);
    assert_eq!(parsed("fill --table a"), filled);
    let words = [
        "edit",
        "a",
        "row 2 flags 3; row 0 scope 1",
        "insert 0 kind 1 agent 0",
    ];
    let Ok(Command::Files(request)) = parse(words.into_iter().map(OsString::from)) else {
        panic!();
    };
    let Task::Make(Making::Edited(steps)) = request.task else {
        panic!();
    };
    let steps: Vec<String> = steps.iter().map(ToString::to_string).collect();
    let expected = ["row 2 flags 3", "row 0 scope 1", "insert 0 kind 1 agent 0"];
    assert_eq!(steps, expected);
    let why = Telling::Why {
        first: 3,
        second: 8,
    };
    assert_eq!(
        parsed("derive --words a 1.before 2.after"),
        self::request(Task::Tell(why), false, &["a"])
    );
}

#[test]
fn words_and_pictures_are_told_apart() {
    let page = |is_all| Telling::Page { is_all };
    let draw = |is_all| Telling::Draw { is_all };
    let explain = |is_all| Telling::Explain { is_all };
    for (line, telling, is_hex) in [
        ("show a", Telling::Show, false),
        ("show --text a", Telling::Text, false),
        ("show --json-lines --hex a", Telling::Lines, true),
        ("explain a", explain(false), false),
        ("explain --all a", explain(true), false),
        ("explain --html a", page(false), false),
        ("--html --hex explain a --all", page(true), true),
        ("draw --hex a", draw(false), true),
        ("draw --all a", draw(true), false),
    ] {
        let expected = request(Task::Tell(telling), is_hex, &["a"]);
        assert_eq!(parsed(line), expected, "{line}");
    }
    let several = request(Task::Tell(Telling::Show), false, &["a", "b"]);
    assert_eq!(parsed("show a b"), several);
}

#[test]
fn bad_words_are_told() {
    for (line, part) in [
        ("", "no command given"),
        ("guess a", "guess"),
        ("check", "no file given"),
        ("check --hxe a", "--hxe"),
        ("check - -", "twice"),
        ("batch a", "batch"),
        ("batch --hex", "batch"),
        ("batch --html", "batch"),
        ("check --html a", "--html"),
        ("draw --html a", "--html"),
        ("draw a b", "one file"),
        ("explain --html a b", "one file"),
        ("explain", "no file given"),
        ("derive", "two moments"),
        ("derive a 1", "two moments"),
        ("derive a b 1 2", "two moments"),
        ("derive a 1 b", "\"b\""),
        ("accepts a 1 2", "a derivation"),
        ("accepts a 1 2 256", "255"),
        ("show --json a", "--json"),
        ("explain --html --json a", "--json"),
        ("batch --quiet", "batch"),
        ("batch --all", "batch"),
        ("explain --json --all a", "--all"),
        ("check --all a", "--all"),
        ("help guess", "guess"),
        ("help fill check", "one command"),
        ("check -j 0 a", "from 1 to 256"),
        ("check -j 257 a", "from 1 to 256"),
        ("check a -j", "from 1 to 256"),
        ("check -jx a", "\"x\""),
        ("check --jobs=+1 a", "\"+1\""),
        ("check --table a", "--table"),
        ("check --words a", "--words"),
        ("accepts --words a 1 2 3", "--words"),
        ("explain --quiet a", "--quiet"),
        ("fill --table a b", "one file"),
        ("fill --table --json a", "--json"),
        ("edit a", "row 2 flags 3"),
        ("edit", "row 2 flags 3"),
        ("show --text --json-lines a", "not both"),
        ("show --text a b", "one file"),
        ("check --text a", "--text"),
        ("make --json-lines a", "--json-lines"),
        ("make a b", "one file"),
        ("make", "no file given"),
        ("make --json a", "--json"),
        ("batch --text", "batch"),
        ("completion", "bash, zsh or fish"),
        ("completion tcsh", "bash, zsh or fish"),
        ("completion bash zsh", "bash, zsh or fish"),
        ("completion --hex bash", "no options"),
        ("batch --sarif", "batch"),
        ("fill --sarif a", "--sarif"),
        ("explain --sarif a", "--sarif"),
        ("check --sarif --json a", "without --json"),
        ("check --sarif --quiet a", "without --json"),
        ("edit a row", "no edit"),
        ("derive a 1.during 2", "1.before"),
        ("check a --then", "a file of rows"),
        ("check a --then b --then c", "twice"),
        ("check - --then -", "twice"),
        ("check a b --then -", "one file"),
        ("show a --then b", "--then"),
        ("fill --table a --then b", "--then"),
        ("check --sarif a --then b", "--then"),
        ("derive --words a 1 2 --then b", "--then"),
        ("batch --then b", "batch"),
    ] {
        let reason = parsed(line).expect_err(line);
        assert!(reason.contains(part), "{line}: {reason}");
    }
}
