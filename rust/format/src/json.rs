//! Objects in JSON.

use std::fmt::{self, Display, Write};

/// A text in quotation marks. JSON forbids those, backslashes and the letters
/// below the space in it; the last are written by their numbers.
pub struct Quoted<'a>(pub &'a str);

impl Display for Quoted<'_> {
    fn fmt(&self, formatter: &mut fmt::Formatter) -> fmt::Result {
        formatter.write_char('"')?;
        for letter in self.0.chars() {
            match letter {
                '"' | '\\' => write!(formatter, "\\{letter}")?,
                '\0'..='\u{1f}' => write!(formatter, "\\u{:04x}", u32::from(letter))?,
                _ => formatter.write_char(letter)?,
            }
        }
        formatter.write_char('"')
    }
}

/// An object, member by member.
#[derive(Default)]
pub struct Object {
    members: String,
}

impl Object {
    /// A value that is shown as JSON has it: a number, a flag, an object.
    pub fn put(&mut self, key: &str, value: impl Display) {
        let comma = if self.is_empty() { "" } else { "," };
        // Writing to a string can't fail.
        let _ = write!(self.members, "{comma}{}:{value}", Quoted(key));
    }

    /// A list of such values.
    pub fn list(&mut self, key: &str, values: impl IntoIterator<Item: Display>) {
        let values = values.into_iter().map(|value| value.to_string());
        self.put(
            key,
            format_args!("[{}]", values.collect::<Vec<_>>().join(",")),
        );
    }

    /// A text.
    pub fn text(&mut self, key: &str, text: &str) {
        self.put(key, Quoted(text));
    }

    /// A list of texts.
    pub fn texts(&mut self, key: &str, texts: &[impl AsRef<str>]) {
        self.list(key, texts.iter().map(|text| Quoted(text.as_ref())));
    }

    /// Whether it has no members.
    pub fn is_empty(&self) -> bool {
        self.members.is_empty()
    }
}

impl Display for Object {
    fn fmt(&self, formatter: &mut fmt::Formatter) -> fmt::Result {
        write!(formatter, "{{{}}}", self.members)
    }
}

#[cfg(test)]
mod tests {
    use super::*;

    #[test]
    fn members_stand_in_their_order() {
        let mut object = Object::default();
        assert_eq!(object.to_string(), "{}");
        object.text("verdict", "cycle");
        object.put("length", 2);
        object.list("rows", [0, 65535]);
        object.list("edges", [0; 0]);
        object.texts("words", &["a", "\""]);
        let expected =
            r#"{"verdict":"cycle","length":2,"rows":[0,65535],"edges":[],"words":["a","\""]}"#;
        assert_eq!(object.to_string(), expected);
    }
}
