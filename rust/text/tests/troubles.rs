//! What is wrong is told with its line, its column and what was expected.

use text::{read, Form};

/// A good beginning of five lines, so that the sixth is the one on trial.
const HEAD: &str =
    "stramashly 1\nagent a = 0.0.0\nagent b = 0.0.1\nref x = 1 Uniform\nw: a write x 0..4\n";

fn told(form: Form, text: &str) -> (usize, usize, String) {
    match read(form, text.as_bytes()) {
        Ok(draft) => match draft.refusal() {
            Some(trouble) => (trouble.line, trouble.column, trouble.reason),
            None => panic!("nothing is wrong with\n{text}"),
        },
        Err(trouble) => (trouble.line, trouble.column, trouble.reason),
    }
}

fn expect(text: &str, place: (usize, usize), part: &str) {
    let (line, column, reason) = told(Form::Text, text);
    assert_eq!((line, column), place, "{reason}\n{text}");
    assert!(reason.contains(part), "{reason}, not {part}\n{text}");
}

#[test]
fn bad_first_lines_are_told() {
    for (text, place, part) in [
        ("", (1, 1), "expected `stramashly 1`"),
        ("# nothing\n", (1, 1), "expected `stramashly 1`"),
        (
            "stramash 1",
            (1, 1),
            "expected `stramashly`, not `stramash`",
        ),
        ("stramashly", (1, 11), "expected a version: 1, 2 or 3"),
        ("stramashly 0", (1, 12), "a version: 1, 2 or 3, not `0`"),
        ("\nstramashly 4", (2, 12), "a version: 1, 2 or 3, not `4`"),
        (
            "stramashly 1 2",
            (1, 14),
            "expected the line's end, not `2`",
        ),
        ("stramashly 1 @ a:1", (1, 16), "only rows have a place"),
        (
            "stramashly 1\nstramashly 1",
            (2, 1),
            "the version is said twice",
        ),
    ] {
        expect(text, place, part);
    }
}

/// The column, a line after five good ones, and a part of what is told.
const LINES: &str = r"
6 => agent => expected a name
7 => agent a = 0.0.0 => there is an agent `a` already
7 => agent agent = 0.0.0 => `agent` has a meaning of its own
7 => agent 1c = 0.0.0 => expected a name of letters
7 => agent c:d = 0.0.0 => expected a name of letters
9 => agent c 0.0.0 => expected `=`, not `0.0.0`
10 => agent c = => expected a place like 0.0.0
11 => agent c = 0.0 => expected a place like 0.0.0, not `0.0`
11 => agent c = 0.0.0.0 => expected a place like 0.0.0
11 => agent c = 0.65536.0 => expected a number from 0 to 65535, not `65536`
11 => agent c = 0.-1.0 => expected a number from 0 to 65535, not `-1`
11 => agent c = 0..0 => expected a number from 0 to 65535, not ``
7 => agent c = host => only version 3 has host and queue agents
17 => agent c = shader => expected a place
17 => agent c = 0.0.0 0 => expected the line's end, not `0`
4 => ref => expected a name
5 => ref x = 2 Uniform => there is a reference `x` already
9 => ref y = 1 Image => reference 1 is called `x` already
9 => ref y = 65536 Image => expected a number from 0 to 65535, not `65536`
10 => ref y = 2 => expected a class: Uniform, Workgroup, Image or Output
11 => ref y = 2 uniform => Uniform, Workgroup, Image or Output, not `uniform`
17 => ref y = 2 Image Image => expected the line's end, not `Image`
1 => dependency w before w => only version 3 has dependencies
14 => dependency w w => expected `before`, not `w`
20 => dependency w before => expected a row's label
12 => dependency v before w => no row has the label `v`
3 => @ a:1 => expected a row before its place
1 => w: a write x 0..4 => there is a row `w` already
1 => initial: a write x 0..4 => `initial` has a meaning of its own
1 => : a write x 0..4 => expected a name of letters
3 => v: => expected an agent's name
1 => c write x 0..4 => no agent is called `c`
2 => a => expected a kind of row: plain-read, plain-write, atomic-read
3 => a paint x 0..4 => domain-operation-from-device-to-host; not `paint`
3 => a availability to host => only version 3 has operations of queues
8 => a write => expected a reference's name
9 => a write y 0..4 => no reference is called `y`
10 => a write x => expected bytes like 0..4
11 => a write x 4 => expected bytes like 0..4, not `4`
11 => a write x 65536..65537 => expected a number from 0 to 65535, not `65536`
11 => a write x 65535..65537 => expected a number from 0 to 65536, not `65537`
11 => a write x 4..4 => expected 1 to 16 bytes
11 => a write x 4..0 => expected 1 to 16 bytes
11 => a write x 0..17 => expected 1 to 16 bytes
16 => a write x 0..4 from w => a plain-write has no source
16 => a write x 0..4 rank 1 => a plain-write has no rank
16 => a write x 0..4 release => a plain-write has no order
16 => a write x 0..4 {Uniform} => a plain-write has no semantics
16 => a write x 0..4 instance 1 => a plain-write has no instance
28 => a write x 0..4 non-private non-private => said twice
28 => a write x 0..4 non-private private => said twice
31 => a write x 0..4 make available make-available => said twice
42 => a write x 0..4 non-private make-available => expected a scope: invocation, subgroup
16 => a write x 0..4 colour => expected an order, a scope, classes like {Uniform}
14 => a read x 0..4 => expected a source: `from` and a label, `initial` or `?`
19 => a read x 0..4 from => expected a row's label, `initial` or `?`
20 => a read x 0..4 from v => no row has the label `v`
22 => a read x 0..4 from w from w => the source is said twice
35 => b atomic-read x 0..4 device from w => expected an order: relaxed, acquire
30 => b atomic-read x 0..4 relaxed acquire device => the order is said twice
36 => b atomic-read x 0..4 relaxed from w => expected a scope
37 => b atomic-write x 0..4 relaxed device => expected a rank, like `rank 1`
43 => b atomic-write x 0..4 relaxed device rank 65536 => from 0 to 65535, not `65536`
38 => b atomic-write x 0..4 release device {Uniform+Uniform} rank 1 => the class Uniform is said twice
38 => b atomic-write x 0..4 release device {} rank 1 => expected a class
38 => b atomic-write x 0..4 release device {Uniform rank 1 => expected classes like {Uniform+Image}
36 => b barrier release device {Uniform} rank 1 => a barrier has no rank
11 => b barrier non-private release device {Uniform} => a barrier has no word `private` or
44 => b control-barrier relaxed device instance 1 => expected an execution scope
53 => b control-barrier relaxed device execution workgroup => expected an instance
44 => b control-barrier relaxed device execution now => expected an execution scope: invocation
43 => b control-barrier relaxed device instance 65536 => from 0 to 65535
18 => a write x 0..4 @ here => expected a place like shader.comp:12, not `here`
17 => a write x 0..4 @ => expected a place like shader.comp:12, not ``
18 => a write x 0..4 @ a.comp:0 => expected a place
1 => ä write x 0..4 => no agent is called `ä`
3 => a wrïte x 0..4 x => not `wrïte`
";

/// What the library refuses is told at the row's line.
const REFUSED: &str = r"
1 => a atomic-write x 2..6 relaxed device rank 1 => refused 7 1
1 => a atomic-write x 2..6 relaxed device rank 1 => multiple
3 =>   v: a barrier relaxed device => refused 6 1
1 => a write x 0..4 make-available device => refused 6 1
1 => v: b read x 2..6 from w => refused 9 1
1 => v: b read x 0..4 from v => refused 9 1
1 => b atomic-read x 0..4 relaxed device from ? => refused 9 1
";

/// The three parts of each line.
fn cases(table: &str) -> impl Iterator<Item = [&str; 3]> {
    let lines = table.lines().filter(|line| !line.is_empty());
    lines.map(|line| {
        let parts: Vec<&str> = line.split(" => ").collect();
        parts.try_into().expect(line)
    })
}

#[test]
fn bad_lines_are_told() {
    for [column, line, part] in cases(LINES) {
        let column = column.parse().expect("a column");
        expect(&format!("{HEAD}{line}\n"), (6, column), part);
    }
}

#[test]
fn refusals_are_told_at_their_rows() {
    for [column, line, part] in cases(REFUSED) {
        let column = column.parse().expect("a column");
        expect(&format!("{HEAD}{line}\n"), (6, column), part);
    }
    let host = "stramashly 3\nagent b = host\nb barrier release device {Uniform}\n";
    expect(host, (3, 1), "refused 19 0");
}

#[test]
fn limits_are_told_where_they_are_passed() {
    let agents: String = (0..33)
        .map(|agent| format!("agent c{agent} = 0.0.0\n"))
        .collect();
    expect(
        &format!("stramashly 1\n{agents}"),
        (34, 7),
        "at most 32 agents",
    );
    let rows = "a write x 0..4\n".repeat(128);
    expect(&format!("{HEAD}{rows}"), (133, 1), "at most 128 rows");
    let many = "dependency w before w\n".repeat(65);
    let three = HEAD.replace("stramashly 1", "stramashly 3");
    expect(
        &format!("{three}{many}"),
        (70, 1),
        "at most 64 dependencies",
    );
}

#[test]
fn letters_that_are_none_are_told() {
    let bytes = b"stramashly 1\nagent \xC3\xA4 \xFF = 0.0.0";
    let trouble = read(Form::Text, bytes).unwrap_err();
    assert_eq!(trouble.to_string(), "2:9: byte 0xFF isn't UTF-8");
}

/// The place, the line, which is the first or comes after two good ones, and a
/// part of what is told; `ROW` are the members of a good row.
const JSON_LINES: &str = r#"
1:1 => {"version":1} => expected the key "agents"
1:12 => {"version":4,"agents":[]} => from 0 to 3, not `4`
1:12 => {"version":0,"agents":[]} => 1, 2 or 3
1:12 => {"version":"1","agents":[]} => expected a number
1:12 => {"version":1.0,"agents":[]} => not `1.0`
1:23 => {"version":1,"agents":0} => expected a list
1:14 => {"version":1,"version":1} => said twice
1:26 => {"version":1,"agents":[],"x":1} => not "x"
1:24 => {"version":1,"agents":[{}]} => expected the key "place"
1:24 => {"version":1,"agents":[{"kind":"host"}]} => only version 3
1:33 => {"version":1,"agents":[{"place":[0,0]}]} => [0,0,0]
1:42 => {"version":3,"agents":[],"dependencies":[[0,0]]} => no row 0
1:42 => {"version":3,"agents":[],"dependencies":[[0]]} => [0,1]
1:1 => {} => expected the key "version"
3:1 => [] => expected an object
3:10 => {"agent":1} => there is no agent 1
3:1 => {"agent":0} => the key "kind"
3:19 => {"agent":0,"kind":"x"} => not "x"
3:1 => {"agent":0,"kind":"read"} => the key "reference"
3:78 => {ROW,"source":0} => a plain-write has no source
3:87 => {ROW,"flags":["loud"]} => not "loud"
3:101 => {ROW,"flags":["non-private","non-private"]} => said twice
3:83 => {ROW,"at":"here"} => shader.comp:12
3:86 => {ROW,"label":"a b"} => expected a name
3:46 => {"agent":0,"kind":"write","start":0,"length":17,"reference":1,"class":"Image"} => 1 to 16 bytes
3:1 => {"agent":0,"kind":"write","start":0,"length":4,"reference":1,"class":"Uniform"} => refused 8 1
"#;

#[test]
fn bad_json_lines_are_told() {
    let header = r#"{"version":1,"agents":[{"place":[0,0,0]}]}"#;
    let row = r#""agent":0,"kind":"write","start":0,"length":4,"reference":1,"class":"Image""#;
    let head = format!("{header}\n{{{row}}}\n");
    let nothing = ["1:1", "\n", "expected an object with \"version\""];
    for [place, line, part] in cases(JSON_LINES).chain([nothing]) {
        let line = line.replace("ROW", row);
        let text = match place.starts_with('1') {
            true => line,
            false => format!("{head}{line}\n"),
        };
        let (line, column, reason) = told(Form::Lines, &text);
        assert_eq!(format!("{line}:{column}"), place, "{reason}\n{text}");
        assert!(reason.contains(part), "{reason}, not {part}\n{text}");
    }
}
