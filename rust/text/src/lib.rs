//! Tables as text and as JSON lines: what people write and recorders emit,
//! read into a table's bytes and written from them.
//!
//! Either form has what the bytes have, and names, labels and places in a
//! program besides. The bytes are made by the proved writer; reading and
//! writing the two forms is tested, not proved.
//!
//! | what | module |
//! |---|---|
//! | the words of both forms | `vocabulary` |
//! | the fields of a row, and which a kind has | `said` |
//! | a table as it is read, and its bytes | `draft`, `assemble` |
//! | text | `tokens`, `read`, `row`, `write` |
//! | JSON lines | `json`, `lines_read`, `lines_write` |
//! | what is wrong, and where | `trouble` |

mod assemble;
mod draft;
pub mod json;
mod lines_read;
mod lines_write;
mod read;
mod row;
mod said;
mod tokens;
mod trouble;
mod vocabulary;
mod write;

pub use assemble::{admission, assemble, remade};
pub use draft::Draft;
pub use lines_write::write_lines;
pub use stramashly::Refusal;
pub use trouble::Trouble;
pub use write::write;

/// The two forms that aren't a table's bytes.
#[derive(Clone, Copy, Debug, PartialEq, Eq)]
pub enum Form {
    /// Lines of words; the first word is `stramashly`.
    Text,
    /// A JSON object a line.
    Lines,
}

/// The form of what bytes begin, none if they can only be a table: a table
/// that is accepted begins with a 0.
pub fn form(bytes: &[u8]) -> Option<Form> {
    let bytes = tokens::without_mark(bytes);
    for line in bytes.split(|letter| *letter == b'\n') {
        let line = line.trim_ascii();
        if line.is_empty() || line.starts_with(b"#") {
            continue;
        }
        if line.starts_with(b"{") {
            return Some(Form::Lines);
        }
        let first = line.split(u8::is_ascii_whitespace).next();
        return (first == Some(vocabulary::HEAD.as_bytes())).then_some(Form::Text);
    }
    None
}

/// Reads either form; the first trouble and its place if there is one.
pub fn read(form: Form, bytes: &[u8]) -> Result<Draft, Trouble> {
    let text = tokens::decoded(tokens::without_mark(bytes))?;
    match form {
        Form::Text => read::read(text),
        Form::Lines => lines_read::read(text),
    }
}
