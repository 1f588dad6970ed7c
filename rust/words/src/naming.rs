//! Sentences with the names, labels and places of a text: agents and
//! references by their names, the numbers beside them in brackets, and rows
//! with their labels and places.

use mend::Notes;
use std::collections::BTreeSet;

/// A sentence that names more rows than this is a list; its rows stay bare.
const MOST_ROWS: usize = 4;

/// What a number in a sentence counts.
#[derive(Clone, Copy, PartialEq, Eq)]
enum Noun {
    None,
    Row,
    Agent,
    Reference,
}

/// The sentence with what is noted of the agents, references and rows that
/// it names. An edit is none, and neither is what stands between backticks.
pub fn named(notes: &Notes, sentence: &str) -> String {
    let is_edit = sentence.trim_start().starts_with("edit: ");
    if is_edit || *notes == Notes::default() {
        return sentence.to_string();
    }
    let mut namer = Namer {
        notes,
        named: String::new(),
        held: String::new(),
        noun: Noun::None,
        is_list: false,
        is_new: false,
        is_range: false,
        told: (mentioned(sentence).len() <= MOST_ROWS).then(BTreeSet::new),
    };
    for (place, part) in sentence.split('`').enumerate() {
        if place > 0 {
            namer.flush();
            namer.named.push('`');
        }
        match place % 2 {
            0 => namer.put(part),
            _ => namer.named += part,
        }
    }
    namer.flush();
    namer.named
}

/// `(w0, alloc.comp:41)`, of a row of which neither is noted nothing.
fn row_note(notes: &Notes, row: usize) -> Option<String> {
    let label = notes.label(row).map(str::to_string);
    let place = notes.place(row).map(std::string::ToString::to_string);
    let parts: Vec<String> = label.into_iter().chain(place).collect();
    (!parts.is_empty()).then(|| format!(" ({})", parts.join(", ")))
}

/// A sentence on its way from word to word.
struct Namer<'a> {
    notes: &'a Notes,
    named: String,
    /// `agent `, `reference ` and what goes before it, until the number comes.
    held: String,
    noun: Noun,
    /// Whether more numbers may follow.
    is_list: bool,
    is_new: bool,
    /// Whether a number is an end of several rows.
    is_range: bool,
    /// The rows that have been told of, none in a list.
    told: Option<BTreeSet<usize>>,
}

impl Namer<'_> {
    fn flush(&mut self) {
        self.named += &std::mem::take(&mut self.held);
    }

    fn put(&mut self, text: &str) {
        let words: Vec<&str> = text.split_inclusive(' ').collect();
        for (place, word) in words.iter().enumerate() {
            let digits = word.find(|letter: char| !letter.is_ascii_digit());
            let (digits, rest) = word.split_at(digits.unwrap_or(word.len()));
            let next = words.get(place + 1).map_or("", |next| next.trim_end());
            let is_count = next.starts_with("more");
            self.is_range = next == "to" || words[..place].ends_with(&["to "]);
            match digits.parse::<usize>() {
                Ok(number) if self.noun != Noun::None && !is_count => self.number(number, rest),
                _ => self.word(word),
            }
        }
    }

    fn number(&mut self, number: usize, rest: &str) {
        let (whose, rest) = match rest.strip_prefix("'s") {
            Some(rest) => ("'s", rest),
            None => ("", rest),
        };
        // In a list the noun stands before the first number only.
        let held = match (std::mem::take(&mut self.held).as_str(), self.noun) {
            ("" | "agents ", Noun::Agent) => "agent ".to_string(),
            (held, _) => held.to_string(),
        };
        let notes = self.notes;
        let name = match self.noun {
            Noun::Agent => notes.agent(number).map(str::to_string),
            Noun::Reference => {
                let name = notes.references.get(&(number as u16));
                name.map(|name| format!("`{name}`"))
            }
            _ => None,
        };
        self.named += &match (name, held.trim_end()) {
            (Some(name), held) => format!("{name}{whose} ({held} {number})"),
            (None, "") => format!("{number}{whose}"),
            (None, held) => format!("{held} {number}{whose}"),
        };
        if self.noun == Noun::Row && !self.is_new && !self.is_range {
            let is_first = self.told.as_mut().is_some_and(|told| told.insert(number));
            let note = row_note(notes, number).filter(|_| is_first);
            self.named += &note.unwrap_or_default();
        }
        self.named += rest;
        let goes_on = rest.starts_with(", ") || rest == " ";
        if !(self.is_list && goes_on) {
            self.noun = Noun::None;
        }
    }

    fn word(&mut self, word: &str) {
        let bare = word.trim_end();
        let is_joined = self.is_list && bare == "and" && self.noun != Noun::None;
        if is_joined {
            // The noun of a list goes before each of its numbers.
            self.named += word;
            return;
        }
        let noun = match bare {
            "row" | "Row" | "rows" | "Rows" => Noun::Row,
            "agent" | "agents" => Noun::Agent,
            "reference" => Noun::Reference,
            _ => Noun::None,
        };
        let is_sort = matches!(bare, "host" | "queue");
        match noun {
            Noun::Agent | Noun::Reference => {
                self.held += word;
            }
            _ if is_sort => {
                self.flush();
                self.held = word.to_string();
            }
            _ => {
                self.flush();
                self.named += word;
            }
        }
        self.noun = noun;
        self.is_list = matches!(bare, "rows" | "Rows" | "agents");
        if noun == Noun::None {
            self.is_new = bare == "new";
        }
    }
}

/// The rows that a sentence names; new ones aren't in the table.
pub fn mentioned(line: &str) -> Vec<usize> {
    let mut rows = Vec::new();
    let (mut is_row, mut is_new) = (false, false);
    for word in line.split_whitespace() {
        let end = word.find(|letter: char| !letter.is_ascii_digit());
        let number = word[..end.unwrap_or(word.len())].parse::<usize>().ok();
        match number {
            Some(row) if is_row => rows.push(row),
            _ => is_row = is_row && word == "and",
        }
        is_row |= matches!(word, "row" | "Row" | "rows" | "Rows") && !is_new;
        is_new = word == "new";
    }
    rows
}

#[cfg(test)]
mod tests {
    use super::*;
    use mend::{Place, RowNote};

    fn notes() -> Notes {
        let row = |label: &str, line| RowNote {
            label: Some(label.to_string()),
            place: Some(Place {
                file: "a.comp".to_string(),
                line,
                column: None,
            }),
            spot: (1, 1),
        };
        Notes {
            agents: vec![Some("maker".to_string()), None, Some("user".to_string())],
            references: [(1, "slot".to_string())].into(),
            rows: vec![row("w", 3), RowNote::default(), row("r", 9)],
        }
    }

    #[test]
    fn sentences_have_names() {
        for (bare, named) in [
            (
                "  row 0, agent 0's plain write by reference 1 in Uniform",
                "  row 0 (w, a.comp:3), maker's (agent 0) plain write by `slot` (reference 1) in Uniform",
            ),
            (
                "Rows 0 and 2 conflict, and row 0 is private:",
                "Rows 0 (w, a.comp:3) and 2 (r, a.comp:9) conflict, and row 0 is private:",
            ),
            (
                "which agents 0 and 1 don't share",
                "which maker (agent 0) and agent 1 don't share",
            ),
            (
                "row 2's moment, of host agent 2.",
                "row 2's (r, a.comp:9) moment, of user (host agent 2).",
            ),
            ("     edit: row 0 flags 3", "     edit: row 0 flags 3"),
            ("new row 0 `a row 0`; reference 2", "new row 0 `a row 0`; reference 2"),
            ("rows 0, 1, 2, 3, 4 and 12 more", "rows 0, 1, 2, 3, 4 and 12 more"),
            ("rows 0 to 2 are plain", "rows 0 to 2 are plain"),
            (
                "the queue is full, all 3 agents of it wait",
                "the queue is full, all 3 agents of it wait",
            ),
        ] {
            assert_eq!(super::named(&notes(), bare), named);
            assert_eq!(super::named(&Notes::default(), bare), bare);
        }
    }

    #[test]
    fn rows_of_sentences_are_found() {
        for (line, rows) in [
            ("Rows 0 and 4 conflict, at byte 7:", vec![0, 4]),
            (
                "Other races: rows 1 and 5 at byte 16, and 3 more",
                vec![1, 5],
            ),
            ("row 1's moment comes before row 12, a release", vec![1, 12]),
            ("edit: new row 3; row 2 flags 5", vec![2]),
            ("bytes 0 to 3", vec![]),
        ] {
            assert_eq!(mentioned(line), rows, "{line}");
        }
    }
}
