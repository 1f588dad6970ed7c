//! A line of `batch`: what it asks of which table.

use crate::question::{number, Kind, Question, Writing};
use crate::read::{front_of_rows, KEPT_BYTES};
use format::{Bad, Hex};

/// What a line asks of which table, whose second piece may be empty.
#[derive(Clone, Debug, PartialEq, Eq)]
pub struct Asked {
    pub question: Question,
    pub pieces: [Vec<u8>; 2],
}

/// A word and how many letters of the line stand before it.
type Word<'a> = (usize, &'a [u8]);

/// What a line asks: a command, a table's hex digits, for some commands those of
/// its second piece, and further words. These need the digits without white space;
/// else it is ignored. A piece without bytes is `-`. `write` has values in the
/// table's place. Nothing is asked by white space, and by what begins with `#`.
pub fn asked(line: &[u8]) -> Option<Result<Asked, String>> {
    let (begin, command) = words(line).next()?;
    if command.starts_with(b"#") {
        return None;
    }
    let end = begin + command.len();
    let rest = words(line).skip(1);
    let asked = match Kind::of_line(command) {
        None => Err(format!("none of {}", Kind::LINES)),
        Some((Kind::Write, _)) => writing(rest.collect()).map(|writing| Asked {
            question: Question::Write(writing),
            pieces: Default::default(),
        }),
        Some((kind, false)) if !kind.takes_words() => {
            bytes((end, &line[end..])).and_then(|(table, _)| {
                let pieces = [table, Vec::new()];
                kind.question(&[])
                    .map(|question| Asked { question, pieces })
            })
        }
        Some((kind, is_in_pieces)) => of_words(kind, is_in_pieces, rest),
    };
    Some(asked)
}

/// The same of a line that begins with a name and a tab. After these a table's
/// digits alone ask for a check.
#[allow(clippy::type_complexity)]
pub fn asked_with_id(line: &[u8]) -> Option<(Option<String>, Result<Asked, String>)> {
    let (_, first) = words(line).next()?;
    if first.starts_with(b"#") {
        return None;
    }
    let Some(tab) = line.iter().position(|letter| *letter == b'\t') else {
        return Some((
            None,
            Err("no tab stands between a name and a table".to_string()),
        ));
    };
    let id = String::from_utf8_lossy(&line[..tab]).into_owned();
    // What is told of a place counts from the line's beginning.
    let mut rest = line.to_vec();
    rest[..=tab].fill(b' ');
    let is_command = words(&rest)
        .next()
        .is_some_and(|(_, word)| Kind::of_line(word).is_some());
    let asked = match is_command {
        true => asked(&rest)?,
        false => bytes((tab + 1, &line[tab + 1..])).map(|(table, _)| Asked {
            question: Question::Check,
            pieces: [table, Vec::new()],
        }),
    };
    Some((Some(id), asked))
}

fn words(line: &[u8]) -> impl Iterator<Item = Word<'_>> {
    let mut next = 0;
    line.split(u8::is_ascii_whitespace).filter_map(move |word| {
        let at = next;
        next += word.len() + 1;
        (!word.is_empty()).then_some((at, word))
    })
}

/// The bytes of hex digits, cut off after `KEPT_BYTES`, and how many more there are.
fn bytes((at, digits): Word) -> Result<(Vec<u8>, u64), String> {
    let mut hex = Hex::after(at);
    let read = hex.push(digits, KEPT_BYTES).and_then(|()| hex.bytes());
    read.map_err(|bad: Bad| bad.to_string())
}

fn of_words<'a>(
    kind: Kind,
    is_in_pieces: bool,
    mut words: impl Iterator<Item = Word<'a>>,
) -> Result<Asked, String> {
    let piece = |word: Option<Word>| match word {
        Some((at, [b'-', rest @ ..])) => bytes((at + 1, rest)),
        word => bytes(word.unwrap_or_default()),
    };
    let (table, _) = piece(words.next())?;
    let mut rows = Vec::new();
    if is_in_pieces {
        let missing = "the second piece is missing; `-` is an empty one";
        let (front, left_out) = piece(Some(words.next().ok_or(missing)?))?;
        rows = front_of_rows(&front, left_out).to_vec();
    }
    let words: Vec<String> = words.map(|(_, word)| shown(word)).collect();
    let words: Vec<&str> = words.iter().map(String::as_str).collect();
    Ok(Asked {
        question: kind.question(&words)?,
        pieces: [table, rows],
    })
}

/// A word as a message has it: one letter more than any good word has.
fn shown(word: &[u8]) -> String {
    let most = "program-order".len() + 1;
    String::from_utf8_lossy(&word[..word.len().min(most)]).into_owned()
}

const USAGE: &str = "write takes a version, a room, places, rows and dependencies";

/// The values of a `write` line.
fn writing(words: Vec<Word>) -> Result<Writing, String> {
    let [(_, version), (_, room), places, rows, dependencies] = words[..] else {
        return Err(USAGE.to_string());
    };
    // One letter more than any number has.
    let cut =
        |word: &[u8]| -> String { word.iter().take(6).map(|byte| char::from(*byte)).collect() };
    Ok(Writing {
        version: number(&cut(version), u8::MAX)?,
        room: number(&cut(room), u16::MAX)?,
        places: pairs(&parts(places, "a place", 8)?),
        rows: parts(rows, "a row", 16)?,
        dependencies: pairs(&parts(dependencies, "a dependency", 4)?),
    })
}

/// The bytes, which must be those of whole parts; a dash stands for none. So many
/// that some were cut off are over every limit, with or without the last.
fn parts(word: Word, name: &str, size: usize) -> Result<Vec<u8>, String> {
    if word.1 == b"-" {
        return Ok(Vec::new());
    }
    let (mut bytes, _) = bytes(word)?;
    let whole = bytes.len() - bytes.len() % size;
    if whole < bytes.len() && bytes.len() < KEPT_BYTES {
        return Err(format!("{name} has {size} bytes"));
    }
    bytes.truncate(whole);
    Ok(bytes)
}

/// Numbers of two bytes, big-endian.
fn pairs(bytes: &[u8]) -> Vec<u16> {
    let pairs = bytes.chunks_exact(2);
    pairs
        .map(|pair| u16::from_be_bytes([pair[0], pair[1]]))
        .collect()
}

#[cfg(test)]
mod tests {
    use super::*;
    use crate::question::Claim;

    fn ask(line: &str) -> Result<(Question, [Vec<u8>; 2]), String> {
        let asked = asked(line.as_bytes()).expect(line)?;
        Ok((asked.question, asked.pieces))
    }

    #[test]
    fn tables_and_words_are_read() {
        let derive = Question::Derive {
            first: 3,
            second: 8,
        };
        for (line, question, pieces) in [
            ("check 01 02", Question::Check, [vec![1, 2], vec![]]),
            (
                "derive\t  0aFF 3 \t 8\r",
                derive.clone(),
                [vec![10, 255], vec![]],
            ),
            (
                " derive2\t  0aFF \t 01  3 8\r",
                derive,
                [vec![10, 255], vec![1]],
            ),
            ("check2 - -", Question::Check, [vec![], vec![]]),
            ("check2 00 -", Question::Check, [vec![0], vec![]]),
            ("check2\t- 01 ", Question::Check, [vec![], vec![1]]),
            ("row2 00 - 7", Question::Row { row: 7 }, [vec![0], vec![]]),
        ] {
            assert_eq!(ask(line), Ok((question, pieces)), "{line}");
        }
    }

    #[test]
    fn bad_lines_are_told() {
        for (line, part) in [
            ("check2 00", "second piece is missing"),
            ("check2", "second piece is missing"),
            ("check2 00 01 02", "no words"),
            ("check2 0 01", "digit"),
            ("check2 00 0G", "'G' at place 11 "),
            ("check2 0G 00", "'G' at place 8 "),
            ("check2 00 -1", "digit"),
            ("check2 00 --", "'-' at place 11 "),
            ("row2 00 -", "one row"),
            ("row2 00 - 65536", "65535"),
            ("row 00 1", "none of"),
            ("accepts22 00 00 1 2 3", "none of"),
            ("2 00 00", "none of"),
            ("rows2 00 00", "none of"),
            ("write2 1 2 - - -", "none of"),
            ("check 0G", "'G' at place 7 "),
            ("  check 0G", "'G' at place 9 "),
            ("derive 0G 1 2", "'G' at place 8 "),
            ("derive 01 02 3 4", "two moments"),
            ("derive", "two moments"),
            ("derives 00 1 2", "none of"),
        ] {
            let reason = ask(line).expect_err(line);
            assert!(reason.contains(part), "{line}: {reason}");
        }
    }

    #[test]
    fn blank_lines_and_comments_ask_nothing() {
        for line in ["", " \t\r", "# check 00", "  # x", "#", "#x"] {
            assert_eq!(asked(line.as_bytes()), None, "{line}");
        }
    }

    #[test]
    fn long_lines_are_told_in_short() {
        let steps = " 5".repeat(300_000);
        let (question, _) = ask(&format!("accepts 00 1 2 3{steps}")).unwrap();
        let claim = Claim::Chain {
            classes: 3,
            steps: vec![5; 300_000],
        };
        let accepts = Question::Accepts {
            first: 1,
            second: 2,
            claim,
        };
        assert_eq!(question, accepts);
        for (word, told) in [("x", "\"x\""), (&"1".repeat(300_000), "\"11111111111111\"")] {
            let reason = ask(&format!("accepts 00 1 2 3{steps} {word}{steps}")).unwrap_err();
            assert!(reason.contains(told), "{reason}");
        }
    }

    #[test]
    fn values_are_read() {
        let line = " write 3  100\t00010002000300Ff - 0102fffe\r";
        let writing = Writing {
            version: 3,
            room: 100,
            places: vec![1, 2, 3, 255],
            rows: vec![],
            dependencies: vec![258, 65534],
        };
        let expected = (Question::Write(writing), [vec![], vec![]]);
        assert_eq!(ask(line), Ok(expected));
    }

    #[test]
    fn bad_values_are_told() {
        for (line, part) in [
            ("", USAGE),
            (" 1 2 - -", USAGE),
            (" 1 2 - - - -", USAGE),
            (" 256 2 - - -", "0 to 255"),
            (" 1 65536 - - -", "0 to 65535"),
            (" 1 000002 - - -", "\"000002\""),
            (" 1 2 00 - -", "a place has 8 bytes"),
            (" 1 2 - 00 -", "a row has 16 bytes"),
            (" 1 2 - - 000000", "a dependency has 4 bytes"),
            (" 1 2 - - 0", "odd count"),
            (" 1 2 -0 - -", "'-' at place 10 "),
            (" 1 2 - 0g -", "'g' at place 13 "),
            (" 1 2 -- - -", "'-' at place 10 "),
        ] {
            let reason = ask(&format!("write{line}")).expect_err(line);
            assert!(reason.contains(part), "{line}: {reason}");
        }
    }

    #[test]
    fn only_so_many_bytes_are_kept() {
        let digits = "5".repeat(4 * KEPT_BYTES);
        let (question, _) = ask(&format!("write 1 2 {digits} - -")).unwrap();
        let Question::Write(writing) = question else {
            panic!("{question:?}");
        };
        assert_eq!(writing.places.len(), KEPT_BYTES / 8 * 4);
    }
}
