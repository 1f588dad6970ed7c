//! `check --sarif`: what was found in all the files, as one SARIF 2.1.0 log
//! for tools that list findings beside the program's lines.

use crate::answers::Answer;
use crate::fixes::{fixes, Fix};
use crate::found::found;
use crate::races::races;
use crate::read::{Given, Unread};
use crate::verdict::Verdict;
use format::Object;
use mend::first_row;
use stramashly::{Checker, OwnedCheckAnswer, ROW_BYTES};
use words::{findings, race_findings, Finding};

/// The verdict that is a rule's name, its title and what it finds.
type Rule = (Verdict, &'static str, &'static str);

/// A rule for each answer that is not `race-free`, named by its first word.
const RULES: [Rule; 4] = [
    (
        Verdict::Race,
        "Race",
        "Two rows conflict, and nothing orders them at a byte.",
    ),
    (
        Verdict::Overwritten,
        "OverwrittenRead",
        "A row read what had been written over before: the run can't have happened.",
    ),
    (
        Verdict::Cycle,
        "Cycle",
        "Rows come before each other in a circle: the run can't have happened.",
    ),
    (
        Verdict::Refused,
        "Refused",
        "The table breaks a rule of form, so nothing was judged.",
    ),
];

/// Where a table came from.
pub struct Origin<'a> {
    /// The file's name, none of standard input.
    pub file: Option<&'a str>,
    pub is_hex: bool,
}

/// The check's verdict, and the results of a table, an object a line.
pub fn results(given: &Given, origin: &Origin, checker: &mut Checker) -> (Verdict, String) {
    let (table, notes) = (&given.table, &given.notes);
    let answer = checker.check(table).into_owned();
    let verdict = answer.borrowed().verdict();
    if verdict == Verdict::RaceFree {
        return (verdict, String::new());
    }
    // Only what the proved library can't tell goes to the second implementation.
    let races = match verdict {
        Verdict::Race => races(table, checker),
        _ => None,
    };
    let found = match races {
        Some(races) => race_findings(table, notes, &races),
        None => findings(table, notes, checker),
    };
    let mended = match answer {
        OwnedCheckAnswer::Race { first, second, .. } => {
            fixes(table, (first.into(), second.into()), checker)
        }
        _ => Vec::new(),
    };
    let results = found.iter().enumerate().map(|(place, finding)| {
        // The edits are those of the race that a check shows.
        let mended = if place == 0 { &mended[..] } else { &[] };
        result(finding, given, origin, mended)
    });
    let results = results.map(|result| format!("{result}\n")).collect();
    (verdict, results)
}

fn result(finding: &Finding, given: &Given, origin: &Origin, mended: &[Fix]) -> Object {
    let verdict = finding.answer.borrowed().verdict();
    let rule = RULES.iter().position(|(id, ..)| *id == verdict);
    let mut object = Object::default();
    object.text("ruleId", verdict.word());
    object.put("ruleIndex", rule.unwrap_or(0));
    object.text("level", "error");
    object.put("message", text(&finding.message));
    let places = finding.rows.iter().enumerate().map(|(id, (row, words))| {
        let mut place = location(Some(*row), given, origin);
        if id > 0 {
            place.put("id", id);
        }
        place.put("message", text(words));
        place
    });
    let mut places: Vec<Object> = places.collect();
    if places.is_empty() {
        places.push(location(None, given, origin));
    }
    let related = places.split_off(1);
    object.list("locations", &places);
    if !related.is_empty() {
        object.list("relatedLocations", &related);
    }
    if let Some(found) = found(&given.table, &given.notes, &finding.answer.borrowed()) {
        let mut prints = Object::default();
        prints.text(FINGERPRINT, &found.fingerprint.to_string());
        object.put("partialFingerprints", prints);
    }
    // Of a text the bytes aren't there to be replaced; the edit is told all the same.
    let replaced: Vec<Object> = match (origin.file, given.form.is_none() && !origin.is_hex) {
        (Some(file), true) => mended
            .iter()
            .map(|fix| replaced(fix, file, given))
            .collect(),
        _ => Vec::new(),
    };
    if !replaced.is_empty() {
        object.list("fixes", &replaced);
    }
    let mut properties = Object::default();
    if let Some(file) = origin.file {
        properties.text("table", file);
    }
    properties.text("answer", &finding.answer.to_string());
    properties.put("proved", finding.is_proved);
    if !mended.is_empty() {
        let edits: Vec<String> = mended.iter().map(Fix::edit).collect();
        properties.texts("edits", &edits);
    }
    object.put("properties", &properties);
    object
}

/// The name of what stays the same of a finding from run to run.
const FINGERPRINT: &str = "stramashly/v1";

/// A fix of a table's bytes.
fn replaced(fix: &Fix, file: &str, given: &Given) -> Object {
    let bytes = fix.bytes(&given.table).into_iter();
    let replacements = bytes.map(|(at, value)| {
        let mut region = Object::default();
        region.put("byteOffset", at);
        region.put("byteLength", 1);
        let mut content = Object::default();
        content.text("binary", &base64(value));
        let mut replacement = Object::default();
        replacement.put("deletedRegion", region);
        replacement.put("insertedContent", content);
        replacement
    });
    let mut artifact = Object::default();
    artifact.text("uri", &uri(file));
    let mut change = Object::default();
    change.put("artifactLocation", artifact);
    change.list("replacements", replacements);
    let outcome = match fix.is_whole {
        true => "then nothing races",
        false => "then these rows don't race, others do",
    };
    let mut object = Object::default();
    object.put("description", text(&format!("{}; {outcome}", fix.edit())));
    object.list("artifactChanges", [change]);
    object
}

/// A byte as binary contents are written.
fn base64(byte: u8) -> String {
    const LETTERS: &[u8; 64] = b"ABCDEFGHIJKLMNOPQRSTUVWXYZabcdefghijklmnopqrstuvwxyz0123456789+/";
    let letter = |sixth: u8| char::from(LETTERS[usize::from(sixth)]);
    format!("{}{}==", letter(byte >> 2), letter((byte & 3) << 4))
}

fn text(text: &str) -> Object {
    let mut message = Object::default();
    message.text("text", text);
    message
}

/// Where a row stands: in the program, else in the text, else in the bytes; or
/// the file as a whole.
fn location(row: Option<usize>, given: &Given, origin: &Origin) -> Object {
    let mut region = Object::default();
    let place = row.and_then(|row| given.notes.place(row));
    let mut file = origin.file;
    if let Some(place) = place {
        file = Some(&place.file);
        region.put("startLine", place.line as usize);
        if let Some(column) = place.column {
            region.put("startColumn", column as usize);
        }
    } else if let (Some(row), Some(draft)) = (row, &given.draft) {
        let (line, column) = draft.notes.rows[row].spot;
        region.put("startLine", line);
        region.put("startColumn", column);
    } else if let (Some(row), false) = (row, origin.is_hex) {
        region.put("byteOffset", first_row(&given.table) + ROW_BYTES * row);
        region.put("byteLength", ROW_BYTES);
    }
    let mut location = Object::default();
    if let Some(file) = file {
        location.put("physicalLocation", physical(file, &region));
    }
    if let Some(row) = row {
        let mut logical = Object::default();
        logical.text("name", &format!("row {row}"));
        location.list("logicalLocations", &[logical]);
    }
    location
}

fn physical(file: &str, region: &Object) -> Object {
    let mut artifact = Object::default();
    artifact.text("uri", &uri(file));
    let mut physical = Object::default();
    physical.put("artifactLocation", &artifact);
    if !region.is_empty() {
        physical.put("region", region);
    }
    physical
}

/// A file's name as a reference: what has a meaning there is written by its
/// number.
pub fn uri(file: &str) -> String {
    let mut uri = String::new();
    if file.starts_with('/') {
        uri += "file://";
    }
    for byte in file.bytes() {
        match byte {
            b'A'..=b'Z' | b'a'..=b'z' | b'0'..=b'9' | b'/' | b'-' | b'.' | b'_' | b'~' => {
                uri.push(char::from(byte));
            }
            _ => uri += &format!("%{byte:02X}"),
        }
    }
    uri
}

/// What can't be read is a notification, not a result.
pub fn notification(file: &str, reason: &Unread) -> Object {
    let mut notification = Object::default();
    notification.text("level", "error");
    notification.put("message", text(&reason.to_string()));
    let mut region = Object::default();
    if let Some((line, column)) = reason.spot() {
        region.put("startLine", line);
        region.put("startColumn", column);
    }
    let mut location = Object::default();
    location.put("physicalLocation", physical(file, &region));
    notification.list("locations", &[location]);
    notification
}

/// The log of all the results and notifications.
pub fn log(results: &[String], notifications: &[Object]) -> String {
    let rules = RULES.map(|(id, name, words)| {
        let mut level = Object::default();
        level.text("level", "error");
        let mut rule = Object::default();
        rule.text("id", id.word());
        rule.text("name", name);
        rule.put("shortDescription", text(words));
        rule.put("defaultConfiguration", &level);
        rule
    });
    let mut driver = Object::default();
    driver.text("name", "stramashly");
    driver.text("version", env!("CARGO_PKG_VERSION"));
    driver.list("rules", &rules);
    let mut tool = Object::default();
    tool.put("driver", &driver);
    let mut invocation = Object::default();
    invocation.put("executionSuccessful", notifications.is_empty());
    if !notifications.is_empty() {
        invocation.list("toolExecutionNotifications", notifications);
    }
    let mut run = Object::default();
    run.put("tool", &tool);
    run.list("invocations", &[invocation]);
    run.text("columnKind", "unicodeCodePoints");
    run.put("results", format!("[{}]", results.join(",")));
    let mut log = Object::default();
    log.text("$schema", "https://json.schemastore.org/sarif-2.1.0.json");
    log.text("version", "2.1.0");
    log.list("runs", &[run]);
    format!("{log}\n")
}

#[cfg(test)]
mod tests {
    use super::{base64, uri};

    #[test]
    fn bytes_are_written_as_others_read_them() {
        for (byte, text) in [(0, "AA=="), (3, "Aw=="), (5, "BQ=="), (255, "/w==")] {
            assert_eq!(base64(byte), text);
        }
    }

    #[test]
    fn names_are_references() {
        assert_eq!(uri("a/b.comp"), "a/b.comp");
        assert_eq!(uri("/a b%.comp"), "file:///a%20b%25.comp");
        assert_eq!(uri("c:\\ä"), "c%3A%5C%C3%A4");
    }
}
