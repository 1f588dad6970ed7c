//! Whatever a text holds, it is read or told; what is read and accepted comes
//! back from what is written of it.

use mend::Notes;
use tables::{fillable, hosted, Random, Size};
use text::{form, read, write, write_lines, Form};

/// Words that mean something, and some that don't.
const WORDS: [&str; 64] = [
    "stramashly",
    "1",
    "3",
    "agent",
    "ref",
    "dependency",
    "before",
    "a",
    "b",
    "q",
    "x",
    "y",
    "=",
    "0.0.0",
    "0.1.2",
    "host",
    "queue",
    "shader",
    "Uniform",
    "Image",
    "a:",
    "w:",
    "read",
    "write",
    "plain-read",
    "plain",
    "atomic-read",
    "atomic-write",
    "read-modify-write",
    "barrier",
    "control-barrier",
    "availability-to-host",
    "visibility",
    "0..4",
    "4..8",
    "0..17",
    "65535..65536",
    "relaxed",
    "acquire",
    "release",
    "acquire-release",
    "device",
    "workgroup",
    "queue-family",
    "{Uniform}",
    "{Uniform+Image}",
    "{",
    "non-private",
    "private",
    "make-available",
    "make-visible",
    "from",
    "initial",
    "?",
    "w",
    "rank",
    "instance",
    "execution",
    "7",
    "65536",
    "@",
    "a.comp:3",
    "#",
    "\u{e4}",
];

fn noise(random: &mut Random) -> String {
    let mut text =
        "stramashly 3\nagent a = 0.0.0\nagent q = queue\nref x = 1 Uniform\n".to_string();
    for _ in 0..random.between(1, 6) {
        let begin = random.pick(&["", "w: a ", "a read x 0..4 from ", "a atomic-write x 0..4 "]);
        text += begin;
        for _ in 0..random.below(9) {
            text += random.pick(&WORDS);
            text += random.pick(&[" ", " ", " ", "\t", ""]);
        }
        text.push('\n');
    }
    text
}

/// Reads it, and if it is accepted holds it to what is written of it.
fn hold(kind: Form, text: &[u8]) -> bool {
    let Ok(draft) = read(kind, text) else {
        return false;
    };
    let made = draft.assemble();
    assert_eq!(made.is_err(), draft.refusal().is_some());
    let Ok(table) = made else {
        assert!(!draft.bytes().is_empty());
        return false;
    };
    let said = write(&table, &draft.notes).unwrap();
    assert_eq!(
        read(Form::Text, said.as_bytes()).unwrap().assemble(),
        Ok(table.clone())
    );
    let lines = write_lines(&table, &draft.notes).unwrap();
    assert_eq!(
        read(Form::Lines, lines.as_bytes()).unwrap().assemble(),
        Ok(table)
    );
    true
}

#[test]
fn words_in_any_order_are_read_or_told() {
    let mut random = Random::new(64);
    let held = (0..20_000).filter(|_| hold(Form::Text, noise(&mut random).as_bytes()));
    assert!(held.count() > 100);
}

/// One letter of a good text is another, or is missing, or comes twice.
#[test]
fn damaged_texts_are_read_or_told() {
    let mut random = Random::new(65);
    let size = Size::of(2, 6);
    let mut held = 0;
    for round in 0..1500 {
        let table = match round % 2 {
            0 => fillable(&mut random, size).bytes(),
            _ => hosted(&mut random, size).bytes(),
        };
        let notes = Notes::default();
        let (Ok(text), Ok(lines)) = (write(&table, &notes), write_lines(&table, &notes)) else {
            continue;
        };
        for (kind, text) in [(Form::Text, text), (Form::Lines, lines)] {
            let mut bytes = text.into_bytes();
            let place = random.below(bytes.len());
            match random.below(4) {
                0 => bytes[place] = random.pick(b"0129 .:{}[]\"\\,\n#@?\xFF-azA"),
                1 => drop(bytes.remove(place)),
                2 => bytes.insert(place, bytes[place]),
                _ => bytes.truncate(place),
            }
            form(&bytes);
            held += usize::from(hold(kind, &bytes));
        }
    }
    assert!(held > 100, "{held}");
}
