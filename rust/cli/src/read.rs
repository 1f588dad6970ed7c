//! A file read: a table's bytes, its hex digits, its text or its JSON lines; and
//! the second piece of a table.

use crate::arguments::{Request, Task};
use crate::input;
use crate::make::Making;
use format::Hex;
use mend::Notes;
use std::ffi::{OsStr, OsString};
use std::fmt;
use std::fs::{self, File};
use std::io::{self, ErrorKind, Read};
use std::os::unix::ffi::OsStringExt;
use std::path::Path;
use stramashly::{Checker, MAX_DEPENDENCIES, MAX_ROWS, MAX_TABLE_BYTES, ROW_BYTES};
use text::{Draft, Form, Trouble};

/// How many bytes of a table are kept: one more than those of any count of
/// dependencies, which the length must fit before the count is refused. More
/// bytes fit no header, however many follow.
pub const KEPT_BYTES: usize = MAX_TABLE_BYTES + 4 * (65535 - MAX_DEPENDENCIES) + 1;
/// A longer text than this is none of a table.
const TEXT_BYTES: usize = 1 << 20;

/// A table, cut off where its refusal is sure, and what was noted of it.
pub struct Given {
    pub table: Vec<u8>,
    pub notes: Notes,
    /// The parts, of what wasn't bytes.
    pub draft: Option<Draft>,
    /// The form of what wasn't bytes.
    pub form: Option<Form>,
    /// What the bytes look like, if that is no table.
    pub likeness: Option<&'static str>,
}

impl Given {
    /// The table with the rows of a second piece after its own; the answer of
    /// the proved library if there is no such table.
    pub fn joined(self, second: Option<&[u8]>, checker: &mut Checker) -> Result<Given, String> {
        let Some(second) = second else {
            return Ok(self);
        };
        let pieces = [&self.table[..], second];
        match words::joined(pieces) {
            Ok(table) => Ok(Given { table, ..self }),
            Err(_) => Err(checker.check(pieces).to_string()),
        }
    }
}

impl From<Vec<u8>> for Given {
    fn from(table: Vec<u8>) -> Given {
        Given {
            table,
            notes: Notes::default(),
            draft: None,
            form: None,
            likeness: None,
        }
    }
}

/// What bytes look like that are no text of a table: told before their refusal.
fn likeness(bytes: &[u8]) -> Option<&'static str> {
    const HEAD: &[u8] = b"stramashly";
    const ENOUGH: usize = 512;
    let bytes = bytes.strip_prefix(b"\xEF\xBB\xBF").unwrap_or(bytes);
    let front = &bytes[..bytes.len().min(ENOUGH)];
    let is_text = |letter: &u8| matches!(letter, b'\t' | b'\n' | b'\r' | b' '..=b'~' | 0x80..);
    let letters = front.trim_ascii();
    // A table begins with a byte 0, and a text has none.
    if letters.is_empty() || !front.iter().all(is_text) {
        return None;
    }
    let is_digit = |letter: &u8| letter.is_ascii_hexdigit() || letter.is_ascii_whitespace();
    let begins = letters.len() >= HEAD.len() && letters[..HEAD.len()].eq_ignore_ascii_case(HEAD);
    Some(match letters[0] {
        _ if begins => {
            "it looks like a table's text, whose first words are `stramashly` and a version"
        }
        b'[' => "it looks like a JSON array; JSON lines have an object a line",
        b'"' => "it looks like JSON; JSON lines have an object a line",
        _ if letters.iter().all(is_digit) => {
            "it looks like hex digits, which --hex reads, and a name that ends in .hex"
        }
        _ => "it looks like text, but not a table's, which begins with `stramashly` and a version",
    })
}

/// Why there is nothing to answer, and where in the file that shows.
#[derive(Clone, Debug, PartialEq, Eq)]
pub struct Unread {
    spot: Option<(usize, usize)>,
    reason: String,
}

impl Unread {
    /// The place in the file.
    pub fn spot(&self) -> Option<(usize, usize)> {
        self.spot
    }

    /// The message, with the file's name and the place.
    pub fn of(&self, name: &str) -> String {
        match self.spot {
            Some((line, column)) => format!("{name}:{line}:{column}: {}", self.reason),
            None => format!("{name}: {}", self.reason),
        }
    }
}

impl From<String> for Unread {
    fn from(reason: String) -> Unread {
        Unread { spot: None, reason }
    }
}

impl From<Trouble> for Unread {
    fn from(trouble: Trouble) -> Unread {
        Unread {
            spot: Some((trouble.line, trouble.column)),
            reason: trouble.reason,
        }
    }
}

impl fmt::Display for Unread {
    /// Without the file's name.
    fn fmt(&self, formatter: &mut fmt::Formatter) -> fmt::Result {
        if let Some((line, column)) = self.spot {
            write!(formatter, "{line}:{column}: ")?;
        }
        write!(formatter, "{}", self.reason)
    }
}

/// Reads a file, whichever of the forms it has; with --hex, or by a name that
/// ends in .hex, it has digits, unless it is a text that a table is to be made of.
pub fn read(name: &OsStr, request: &Request) -> Result<Given, Unread> {
    if request.task == Task::Make(Making::Read) {
        return read_as(name, false);
    }
    read_named(name, request.is_hex)
}

/// Reads a file of a table.
pub fn read_named(name: &OsStr, is_hex: bool) -> Result<Given, Unread> {
    let end = Path::new(name).extension();
    let is_named = end.is_some_and(|end| end.eq_ignore_ascii_case("hex"));
    read_as(name, is_hex || is_named)
}

/// The names in a file, or on standard input, a zero byte after each.
pub fn listed(list: &OsStr) -> Result<Vec<OsString>, String> {
    let trouble = |error: String| format!("{}: {error}", list.to_string_lossy());
    let mut bytes = Vec::new();
    if list == "-" {
        input::trouble()?;
        let read = io::stdin().lock().read_to_end(&mut bytes);
        read.map_err(|error| trouble(error.to_string()))?;
    } else {
        bytes = fs::read(list).map_err(|error| trouble(error.to_string()))?;
    }
    let names = bytes.split(|byte| *byte == 0);
    let names: Vec<OsString> = names
        .filter(|name| !name.is_empty())
        .map(|name| OsString::from_vec(name.to_vec()))
        .collect();
    if names.is_empty() {
        return Err(trouble("the list has no names".to_string()));
    }
    if list == "-" && names.iter().any(|name| name == "-") {
        return Err(trouble(
            "standard input can't be in its own list".to_string(),
        ));
    }
    Ok(names)
}

fn read_as(name: &OsStr, is_hex: bool) -> Result<Given, Unread> {
    if name == "-" {
        input::trouble()?;
        read_from(io::stdin().lock(), is_hex)
    } else {
        let file = File::open(name).map_err(|error| error.to_string())?;
        read_from(file, is_hex)
    }
}

fn read_from(mut input: impl Read, is_hex: bool) -> Result<Given, Unread> {
    if is_hex {
        return Ok(hex_from(input)?.0.into());
    }
    let mut bytes = Vec::with_capacity(KEPT_BYTES);
    let mut more = |bytes: &mut Vec<u8>, most: usize| {
        let read = input.by_ref().take(most as u64).read_to_end(bytes);
        read.map_err(|error| error.to_string())
    };
    more(&mut bytes, KEPT_BYTES)?;
    let Some(form) = text::form(&bytes) else {
        let likeness = likeness(&bytes);
        let given = Given::from(bytes);
        return Ok(Given { likeness, ..given });
    };
    more(&mut bytes, TEXT_BYTES - KEPT_BYTES + 1)?;
    read_text(form, &bytes)
}

fn read_text(form: Form, bytes: &[u8]) -> Result<Given, Unread> {
    if bytes.len() > TEXT_BYTES {
        return Err(format!("the text has more than {TEXT_BYTES} bytes").into());
    }
    let draft = text::read(form, bytes)?;
    Ok(Given {
        table: draft.bytes(),
        notes: draft.notes.clone(),
        draft: Some(draft),
        form: Some(form),
        likeness: None,
    })
}

/// The second piece, if one was given, cut off where its refusal is sure.
pub fn second(request: &Request) -> Result<Option<Vec<u8>>, Unread> {
    let Some(name) = &request.then else {
        return Ok(None);
    };
    let trouble = |reason: String| format!("{}: {reason}", name.to_string_lossy());
    let bytes = if name == "-" {
        input::trouble().and_then(|()| rows_from(io::stdin().lock(), request.is_hex))
    } else {
        let file = File::open(name).map_err(|error| error.to_string());
        file.and_then(|file| rows_from(file, request.is_hex))
    };
    Ok(Some(bytes.map_err(trouble)?))
}

fn rows_from(mut input: impl Read, is_hex: bool) -> Result<Vec<u8>, String> {
    if is_hex {
        let (bytes, left_out) = hex_from(input)?;
        return Ok(front_of_rows(&bytes, left_out).to_vec());
    }
    let text = |error: io::Error| error.to_string();
    let mut bytes = Vec::new();
    let mut kept = input.by_ref().take(KEPT_BYTES as u64);
    kept.read_to_end(&mut bytes).map_err(text)?;
    let left_out = io::copy(&mut input, &mut io::sink()).map_err(text)?;
    Ok(front_of_rows(&bytes, left_out).to_vec())
}

/// The front of a second piece of a table, of which so many bytes were left
/// out: it has too many rows, or is no rows, as the whole has.
pub fn front_of_rows(bytes: &[u8], left_out: u64) -> &[u8] {
    if left_out == 0 {
        return bytes;
    }
    let rest = (bytes.len() as u64 + left_out) as usize % ROW_BYTES;
    &bytes[..ROW_BYTES * (MAX_ROWS + 1) + rest]
}

/// The bytes that are kept, and how many aren't. All is read, so that a letter
/// that is no digit is told wherever it is.
fn hex_from(mut input: impl Read) -> Result<(Vec<u8>, u64), String> {
    let mut hex = Hex::default();
    let mut piece = [0; 1 << 14];
    let pushed = loop {
        match input.read(&mut piece) {
            Ok(0) => break Ok(()),
            Ok(count) => match hex.push(&piece[..count], KEPT_BYTES) {
                Ok(()) => (),
                bad => break bad,
            },
            Err(error) if error.kind() == ErrorKind::Interrupted => (),
            Err(error) => return Err(error.to_string()),
        }
    };
    pushed
        .and_then(|()| hex.bytes())
        .map_err(|bad| bad.to_string())
}

#[cfg(test)]
mod tests {
    use super::*;

    #[test]
    fn rows_keep_the_remainder_of_all_that_came() {
        let digits = vec![b'5'; 1_000_000];
        let (kept, left_out) = hex_from(&digits[..]).unwrap();
        assert_eq!(
            (kept.len(), left_out),
            (KEPT_BYTES, 500_000 - KEPT_BYTES as u64)
        );
        for (more, length) in [(0, 16 * 129), (1, 16 * 129 + 1)] {
            let front = front_of_rows(&kept, left_out + more);
            assert_eq!(front, vec![0x55; length]);
        }
    }
}
