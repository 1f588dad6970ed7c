//! JSON read, with the column of each value.

use crate::trouble::{Spot, Trouble};
use std::iter::Peekable;
use std::str::Chars;

/// A value and where it begins.
#[derive(Clone, Debug)]
pub struct Node {
    /// The value.
    pub value: Value,
    /// Its place.
    pub spot: Spot,
}

/// A value; a number is kept in its letters.
#[derive(Clone, Debug, PartialEq)]
pub enum Value {
    /// `null`, `true` or `false`.
    Word(String),
    /// A number.
    Number(String),
    /// A string.
    Text(String),
    /// A list.
    List(Vec<Node>),
    /// Members in their order, no key twice.
    Object(Vec<Member>),
}

/// A key, its place and its value.
#[derive(Clone, Debug, PartialEq)]
pub struct Member {
    /// The key.
    pub key: String,
    /// Where the key stands.
    pub spot: Spot,
    /// The value.
    pub node: Node,
}

impl PartialEq for Node {
    /// Where it stands doesn't count.
    fn eq(&self, other: &Node) -> bool {
        self.value == other.value
    }
}

/// Lists and objects go so deep.
const DEEPEST: usize = 32;

/// One value that fills a line.
pub fn parse(line: usize, text: &str) -> Result<Node, Trouble> {
    let mut parser = Parser {
        letters: text.chars().peekable(),
        spot: Spot { line, column: 1 },
    };
    let node = parser.value(0)?;
    parser.skip();
    match parser.letters.peek() {
        Some(_) => Err(parser.expected("the line's end")),
        None => Ok(node),
    }
}

struct Parser<'a> {
    letters: Peekable<Chars<'a>>,
    spot: Spot,
}

impl Parser<'_> {
    fn next(&mut self) -> Option<char> {
        let letter = self.letters.next();
        self.spot.column += usize::from(letter.is_some());
        letter
    }

    fn skip(&mut self) {
        while let Some(' ' | '\t' | '\r' | '\n') = self.letters.peek() {
            self.next();
        }
    }

    fn expected(&mut self, what: &str) -> Trouble {
        let found = match self.letters.peek() {
            Some(letter) => format!(", not `{}`", letter.escape_default()),
            None => String::new(),
        };
        self.spot.trouble(format!("expected {what}{found}"))
    }

    /// Takes the letter, if it is the next after white space.
    fn takes(&mut self, letter: char) -> bool {
        self.skip();
        let is_next = self.letters.peek() == Some(&letter);
        if is_next {
            self.next();
        }
        is_next
    }

    fn value(&mut self, depth: usize) -> Result<Node, Trouble> {
        self.skip();
        let spot = self.spot;
        if depth > DEEPEST {
            return Err(spot.trouble(format!("expected no more than {DEEPEST} lists in lists")));
        }
        let value =
            match self.letters.peek() {
                Some('{') => Value::Object(self.members(depth)?),
                Some('[') => Value::List(self.list(depth)?),
                Some('"') => Value::Text(self.text()?),
                Some('-' | '0'..='9') => Value::Number(self.run(|letter| {
                    letter.is_ascii_alphanumeric() || matches!(letter, '+' | '-' | '.')
                })),
                Some('a'..='z') => {
                    let word = self.run(|letter| letter.is_ascii_alphabetic());
                    if !matches!(word.as_str(), "null" | "true" | "false") {
                        return Err(spot.trouble(format!("expected a value, not `{word}`")));
                    }
                    Value::Word(word)
                }
                _ => return Err(self.expected("a value")),
            };
        Ok(Node { value, spot })
    }

    fn run(&mut self, is_part: impl Fn(char) -> bool) -> String {
        let mut run = String::new();
        while let Some(letter) = self
            .letters
            .peek()
            .copied()
            .filter(|letter| is_part(*letter))
        {
            run.push(letter);
            self.next();
        }
        run
    }

    fn list(&mut self, depth: usize) -> Result<Vec<Node>, Trouble> {
        self.next();
        let mut nodes = Vec::new();
        if self.takes(']') {
            return Ok(nodes);
        }
        loop {
            nodes.push(self.value(depth + 1)?);
            if self.takes(']') {
                return Ok(nodes);
            }
            if !self.takes(',') {
                return Err(self.expected("`,` or `]`"));
            }
        }
    }

    fn members(&mut self, depth: usize) -> Result<Vec<Member>, Trouble> {
        self.next();
        let mut members: Vec<Member> = Vec::new();
        if self.takes('}') {
            return Ok(members);
        }
        loop {
            self.skip();
            let spot = self.spot;
            if self.letters.peek() != Some(&'"') {
                return Err(self.expected("a key in quotation marks"));
            }
            let key = self.text()?;
            if members.iter().any(|member| member.key == key) {
                return Err(spot.trouble(format!("the key \"{key}\" is said twice")));
            }
            if !self.takes(':') {
                return Err(self.expected("`:`"));
            }
            let node = self.value(depth + 1)?;
            members.push(Member { key, spot, node });
            if self.takes('}') {
                return Ok(members);
            }
            if !self.takes(',') {
                return Err(self.expected("`,` or `}`"));
            }
        }
    }

    fn text(&mut self) -> Result<String, Trouble> {
        self.next();
        let mut text = String::new();
        loop {
            let spot = self.spot;
            match self.next() {
                Some('"') => return Ok(text),
                Some('\\') => text.push(self.escape(spot)?),
                Some(letter) if letter >= ' ' => text.push(letter),
                Some(_) => return Err(spot.trouble("expected no control letter in a string")),
                None => return Err(spot.trouble("expected the string's end, `\"`")),
            }
        }
    }

    fn escape(&mut self, spot: Spot) -> Result<char, Trouble> {
        Ok(match self.next() {
            Some(letter @ ('"' | '\\' | '/')) => letter,
            Some('b') => '\u{8}',
            Some('f') => '\u{c}',
            Some('n') => '\n',
            Some('r') => '\r',
            Some('t') => '\t',
            Some('u') => return self.numbered(spot),
            _ => return Err(spot.trouble("expected an escape like \\n or \\u0041")),
        })
    }

    /// A letter by its number, or by two of them.
    fn numbered(&mut self, spot: Spot) -> Result<char, Trouble> {
        let bad = || spot.trouble("expected a letter's number like \\u0041");
        let first = self.digits().ok_or_else(bad)?;
        let number = match first {
            0xD800..=0xDBFF => {
                let follows = self.next() == Some('\\') && self.next() == Some('u');
                let second = self.digits().filter(|_| follows);
                let second = second.filter(|second| (0xDC00..=0xDFFF).contains(second));
                0x10000 + (first - 0xD800) * 0x400 + second.ok_or_else(bad)? - 0xDC00
            }
            number => number,
        };
        char::from_u32(number).ok_or_else(bad)
    }

    fn digits(&mut self) -> Option<u32> {
        let mut number = 0;
        for _ in 0..4 {
            number = number * 16 + self.next()?.to_digit(16)?;
        }
        Some(number)
    }
}

#[cfg(test)]
mod tests {
    use super::*;
    use format::Quoted;

    #[test]
    fn texts_are_escaped_and_read_back() {
        let text = "a\"b\\c\nd\u{1}\u{7f}ä😀";
        let expected = "\"a\\\"b\\\\c\\u000ad\\u0001\u{7f}ä😀\"";
        assert_eq!(Quoted(text).to_string(), expected);
        let node = parse(1, expected).unwrap();
        assert_eq!(node.value, Value::Text(text.to_string()));
        let node = parse(1, r#""\u00e4\uD83D\uDE00\/\b\f\r\t""#).unwrap();
        assert_eq!(node.value, Value::Text("ä😀/\u{8}\u{c}\r\t".to_string()));
    }

    #[test]
    fn bad_json_is_told_with_its_place() {
        for (text, column, part) in [
            ("", 1, "a value"),
            ("{", 2, "a key"),
            ("{\"a\"}", 5, "`:`"),
            ("{\"a\":}", 6, "a value"),
            ("{\"a\":1 \"b\":2}", 8, "`,` or `}`"),
            ("{\"a\":1,\"a\":2}", 8, "twice"),
            ("[1 2]", 4, "`,` or `]`"),
            ("[1,]", 4, "a value"),
            ("[1] 2", 5, "the line's end"),
            ("\"a", 3, "the string's end"),
            ("\"\\x\"", 2, "an escape"),
            ("\"\\u12\"", 2, "letter's number"),
            ("\"\\uD800\\u0041\"", 2, "letter's number"),
            ("\"a\tb\"", 3, "control letter"),
            ("nul", 1, "`nul`"),
        ] {
            let trouble = parse(1, text).expect_err(text);
            assert_eq!(
                (trouble.line, trouble.column),
                (1, column),
                "{text}: {trouble}"
            );
            assert!(trouble.reason.contains(part), "{text}: {trouble}");
        }
        let deep = "[".repeat(100_000);
        assert!(parse(1, &deep).is_err());
    }
}
