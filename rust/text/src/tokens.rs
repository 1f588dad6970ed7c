//! A text's letters, lines and words, each with its place.

use crate::trouble::{Spot, Trouble};

/// A word and where it begins.
#[derive(Clone, Copy, Debug)]
pub struct Token<'a> {
    pub word: &'a str,
    pub spot: Spot,
}

/// A line's words, the place in a program after `@`, and where the words end.
pub struct Line<'a> {
    pub tokens: Vec<Token<'a>>,
    pub place: Option<Token<'a>>,
    pub end: Spot,
}

/// Leaves out the mark that some editors put before a text.
pub fn without_mark(bytes: &[u8]) -> &[u8] {
    bytes.strip_prefix(b"\xEF\xBB\xBF").unwrap_or(bytes)
}

/// The letters; where they aren't UTF-8, the place.
pub fn decoded(bytes: &[u8]) -> Result<&str, Trouble> {
    std::str::from_utf8(bytes).map_err(|error| {
        let good = &bytes[..error.valid_up_to()];
        let line = good.split(|letter| *letter == b'\n').count();
        let begin = good.iter().rposition(|letter| *letter == b'\n');
        let last = &good[begin.map_or(0, |begin| begin + 1)..];
        let column = String::from_utf8_lossy(last).chars().count() + 1;
        let byte = bytes[error.valid_up_to()];
        Spot { line, column }.trouble(format!("byte {byte:#04X} isn't UTF-8"))
    })
}

fn is_space(letter: char) -> bool {
    matches!(letter, ' ' | '\t' | '\r')
}

/// A line taken apart: words with white space between them, up to a `#` or
/// an `@` that begins a word.
pub fn line(number: usize, text: &str) -> Line<'_> {
    let mut tokens = Vec::new();
    let mut place = None;
    let mut end = 1;
    let (mut rest, mut column) = (text, 1);
    loop {
        let trimmed = rest.trim_start_matches(is_space);
        column += rest.len() - trimmed.len();
        rest = trimmed;
        let spot = Spot {
            line: number,
            column,
        };
        if let Some(after) = rest.strip_prefix('@') {
            place = Some(place_token(after, spot));
            break;
        }
        if rest.is_empty() || rest.starts_with('#') {
            break;
        }
        let length = rest.find(is_space).unwrap_or(rest.len());
        let (word, after) = rest.split_at(length);
        tokens.push(Token { word, spot });
        column += word.chars().count();
        end = column;
        rest = after;
    }
    let end = Spot {
        line: number,
        column: end,
    };
    Line { tokens, place, end }
}

/// The rest of the line up to a `#` after white space.
fn place_token(after: &str, at: Spot) -> Token<'_> {
    let trimmed = after.trim_start_matches(is_space);
    let column = at.column + 1 + (after.len() - trimmed.len());
    let letters: Vec<(usize, char)> = trimmed.char_indices().collect();
    let comment = letters.iter().enumerate().find(|(place, (_, letter))| {
        let is_after_space = *place == 0 || is_space(letters[place - 1].1);
        *letter == '#' && is_after_space
    });
    let word = match comment {
        Some((_, (byte, _))) => &trimmed[..*byte],
        None => trimmed,
    };
    Token {
        word: word.trim_end_matches(is_space),
        spot: Spot {
            line: at.line,
            column,
        },
    }
}
