//! Text by hand: what it means, and every complaint with its place.

use tables::{Build, Row, Table};
use text::{form, read, write, write_lines, Form};

const LEAK: &str = "\
# Two jobs in one dispatch.
stramashly 1
agent producer = 0.0.0            # family.workgroup.subgroup
agent consumer = 0.1.0
ref owner = 1 Uniform
ref flag  = 3 Uniform

w0: producer write        owner 0..4   non-private                        @ alloc.comp:41
w1: producer atomic-write flag 64..68  release queue-family {Uniform} make-available rank 1  @ alloc.comp:44
    consumer atomic-read  flag 64..68  acquire queue-family {Uniform} make-visible from w1
    consumer read         owner 0..4   non-private from w0                # or: from initial, from ?
";

fn leak() -> Table {
    let flag = |row: Row| row.at(64, 4).reference(3).scope(3);
    Table::new(
        &[[0, 0, 0], [0, 1, 0]],
        &[
            Row::write(0),
            flag(Row::atomic_write(0, 1)).release(1).make_available(),
            flag(Row::atomic_read(1, 1)).acquire(1).make_visible(),
            Row::read(1, 0),
        ],
    )
}

#[test]
fn a_text_by_hand_is_the_table_that_is_meant() {
    assert_eq!(form(LEAK.as_bytes()), Some(Form::Text));
    let draft = read(Form::Text, LEAK.as_bytes()).unwrap();
    assert_eq!(draft.assemble(), Ok(leak().bytes()));
    let notes = &draft.notes;
    assert_eq!(notes.place(1).unwrap().to_string(), "alloc.comp:44");
    assert_eq!((notes.label(1), notes.label(2)), (Some("w1"), None));
    assert_eq!(notes.rows[2].spot, (10, 5));
    // Names, labels and places are kept; a row without a label gets one.
    let text = write(&leak().bytes(), notes).unwrap();
    let expected = "\
stramashly 1
agent producer = 0.0.0
agent consumer = 0.1.0
ref owner = 1 Uniform
ref flag  = 3 Uniform

w0: producer plain-write  owner 0..4  non-private @ alloc.comp:41
w1: producer atomic-write flag 64..68 release queue-family {Uniform} make-available rank 1 @ alloc.comp:44
r2: consumer atomic-read  flag 64..68 acquire queue-family {Uniform} make-visible from w1
r3: consumer plain-read   owner 0..4  non-private from w0
";
    assert_eq!(text, expected);
    let lines = write_lines(&leak().bytes(), notes).unwrap();
    let expected = r#"{"version":1,"agents":[{"place":[0,0,0],"name":"producer"},{"place":[0,1,0],"name":"consumer"}],"references":[{"reference":1,"name":"owner"},{"reference":3,"name":"flag"}]}
{"agent":0,"kind":"plain-write","reference":1,"class":"Uniform","start":0,"length":4,"flags":["non-private"],"label":"w0","at":"alloc.comp:41"}
{"agent":0,"kind":"atomic-write","reference":3,"class":"Uniform","start":64,"length":4,"order":"release","scope":"queue-family","semantics":["Uniform"],"flags":["non-private","make-available"],"rank":1,"label":"w1","at":"alloc.comp:44"}
{"agent":1,"kind":"atomic-read","reference":3,"class":"Uniform","start":64,"length":4,"order":"acquire","scope":"queue-family","semantics":["Uniform"],"flags":["non-private","make-visible"],"source":1}
{"agent":1,"kind":"plain-read","reference":1,"class":"Uniform","start":0,"length":4,"flags":["non-private"],"source":0}
"#;
    assert_eq!(lines, expected);
    let again = read(Form::Lines, lines.as_bytes()).unwrap();
    assert_eq!(again.assemble(), Ok(leak().bytes()));
}

#[test]
fn hosts_queues_and_barriers_are_said() {
    let text = "\u{feff}stramashly 3\r
agent cpu = host\r
agent q = queue 0.0.1\r
agent a = shader 0.0.0\r
agent b = 0.0.1\r
ref d = 7 Image\r
dependency up before op\r
up: cpu write d 65520..65536 private\r
op: q availability to host\r
x: q domain-operation-from-host-to-device\r
q visibility-from-device\r
a control barrier execution workgroup instance 9 acquire-release queue family {Uniform+Output} make available make-visible\r
b control-barrier relaxed device instance 9 execution workgroup\r
a barrier release subgroup {Image}\r
b read d 65535..65536 from ? non-private make-visible queue-family @ a b.comp:3:7 # read\r
a read-modify-write d 8..16 relaxed device from late rank 65535\r
late: b atomic-write d 8..16 relaxed device rank 0\r
dependency x before x\r
";
    let draft = read(Form::Text, text.as_bytes()).unwrap();
    assert_eq!(draft.dependencies, [[0, 1], [2, 2]]);
    assert_eq!(draft.places[..2], [[0, 0, 0, 1], [0, 0, 1, 2]]);
    assert_eq!(draft.rows[8].source, 9);
    assert_eq!((draft.rows[4].class, draft.rows[4].start), (2, 9));
    assert_eq!((draft.rows[4].flags, draft.rows[4].classes), (6, 9));
    assert_eq!(draft.notes.place(7).unwrap().to_string(), "a b.comp:3:7");
    let table = draft.assemble().unwrap();
    let said = write(&table, &draft.notes).unwrap();
    let again = read(Form::Text, said.as_bytes()).unwrap();
    assert_eq!(again.assemble(), Ok(table));
    assert_eq!(again.notes.place(7), draft.notes.place(7));
}

#[test]
fn forms_are_told_by_their_beginnings() {
    for (bytes, expected) in [
        (&b"stramashly 1"[..], Some(Form::Text)),
        (b"\n\n # x\r\n  stramashly\t2\n", Some(Form::Text)),
        (b"stramashly", Some(Form::Text)),
        (b" {\"version\":1}", Some(Form::Lines)),
        (b"\xEF\xBB\xBF{", Some(Form::Lines)),
        (b"", None),
        (b"# Stramashly\n\nStramashly judges", None),
        (b"stramashlyx 1", None),
        (b"\0\0\0\x04\x01\0\0\0", None),
    ] {
        assert_eq!(form(bytes), expected, "{bytes:?}");
    }
}

/// Generated names don't take those that are given.
#[test]
fn names_stay_apart() {
    let lines = r#"{"version":1,"agents":[{"place":[0,0,0],"name":"a1"},{"place":[0,0,0]}]}
{"agent":1,"kind":"write","start":0,"length":1,"reference":5,"class":"Output","label":"r1"}
{"agent":0,"kind":"barrier","order":"acquire","scope":"device","semantics":["Image"]}
"#;
    let draft = read(Form::Lines, lines.as_bytes()).unwrap();
    let table = draft.assemble().unwrap();
    let text = write(&table, &draft.notes).unwrap();
    assert!(text.contains("agent a1_ = 0.0.0"), "{text}");
    assert!(text.contains("r1_: a1  barrier"), "{text}");
    let again = read(Form::Text, text.as_bytes()).unwrap();
    assert_eq!(again.assemble(), Ok(table));
}
