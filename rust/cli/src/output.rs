//! Standard output, which may be closed early, and messages.

use crate::Status;
use std::io::{self, BufWriter, ErrorKind, StdoutLock, Write};

/// Standard output. A reader that has had enough is no trouble: what is
/// written after that is dropped.
pub struct Output {
    writer: BufWriter<StdoutLock<'static>>,
    is_closed: bool,
    status: Status,
}

impl Output {
    pub fn new() -> Output {
        Output {
            writer: BufWriter::with_capacity(1 << 16, io::stdout().lock()),
            is_closed: false,
            status: Status::Fine,
        }
    }

    pub fn write(&mut self, bytes: &[u8]) {
        if !self.is_closed {
            let result = self.writer.write_all(bytes);
            self.note(result);
        }
    }

    pub fn flush(&mut self) {
        if !self.is_closed {
            let result = self.writer.flush();
            self.note(result);
        }
    }

    /// Whether nobody reads any more, or nothing can be written.
    pub fn is_closed(&self) -> bool {
        self.is_closed
    }

    /// Writes out what is left, and tells whether all could be written.
    pub fn finish(mut self) -> Status {
        self.flush();
        self.status
    }

    fn note(&mut self, result: io::Result<()>) {
        let Err(error) = result else {
            return;
        };
        self.is_closed = true;
        if error.kind() != ErrorKind::BrokenPipe {
            complain(&format!("can't write the answers: {error}"));
            self.status = Status::Trouble;
        }
    }
}

/// A message on standard error; if that is closed, it is dropped.
pub fn complain(message: &str) {
    let _ = writeln!(io::stderr(), "stramashly: {message}");
}
