//! `batch`: one table a line, or one table after the other.

use crate::input;
use crate::judge::{append_trouble, judge, Form};
use crate::line::{asked, asked_with_id, Asked};
use crate::output::{complain, Output};
use crate::parallel::{in_order, Giver, Taker};
use crate::progress::Progress;
use crate::question::Question;
use crate::read::KEPT_BYTES;
use crate::Status;
use format::Quoted;
use std::io::{self, BufRead, BufReader, Read, StdinLock};
use std::sync::atomic::{AtomicBool, Ordering};
use stramashly::Checker;

/// A longer line than this is an error. One with the longest table that could
/// have a header of its own has about half as many bytes.
const LINE_BYTES: usize = 1 << 20;
/// So many lines go to a thread at once.
const PIECE: usize = 64;

/// How a batch comes and how it is answered.
#[derive(Clone, Copy, Debug, Default, PartialEq, Eq)]
pub struct Batch {
    pub is_json: bool,
    pub has_chains: bool,
    /// Whether lines begin with a name and a tab, and so do their answers.
    pub has_ids: bool,
    /// Whether tables come as bytes, each with its own length.
    pub is_raw: bool,
    /// Whether the worst answer is the exit status.
    pub has_status: bool,
    pub jobs: usize,
}

impl Batch {
    fn form(self) -> Form<'static> {
        match self.is_json {
            true => Form::Json {
                file: None,
                notes: None,
            },
            false => Form::Plain,
        }
    }
}

pub fn run(batch: Batch) -> Status {
    if let Err(reason) = input::trouble() {
        complain(&reason);
        return Status::Trouble;
    }
    if batch.jobs == 1 {
        one_by_one(batch)
    } else {
        spread(batch)
    }
}

/// Answers each line before the next is read.
fn one_by_one(batch: Batch) -> Status {
    let mut checker = Checker::new().with_chains(batch.has_chains);
    let mut writer = Writer::new();
    let mut lines = Lines::new(batch);
    let mut highest = Status::Fine;
    loop {
        // Whoever waits for an answer before the next line gets it.
        let asked = match lines.next(|| writer.pause()) {
            Ok(Some(asked)) => asked,
            Ok(None) => break,
            Err(status) => {
                highest = status;
                break;
            }
        };
        let (text, status) = answer(&mut checker, batch, asked);
        highest = highest.max(status);
        if !writer.take(vec![(text, status)]) {
            break;
        }
    }
    highest.max(writer.finish())
}

/// Answers lines in several threads, in order.
fn spread(batch: Batch) -> Status {
    let (read, written) = in_order(
        (batch.jobs, || Checker::new().with_chains(batch.has_chains)),
        |giver, is_enough| read_pieces(Lines::new(batch), giver, is_enough),
        |checker, asked| answer(checker, batch, asked),
        Writer::new,
        Writer::finish,
    );
    read.max(written)
}

/// What a line asks, or what is wrong with it, and its name.
struct Line {
    id: Option<String>,
    asked: Result<Asked, String>,
}

/// Gives lines in pieces, and what there is before waiting for more.
fn read_pieces(mut lines: Lines, giver: &mut Giver<Line>, is_enough: &AtomicBool) -> Status {
    let mut piece = Vec::with_capacity(PIECE);
    while !is_enough.load(Ordering::Relaxed) {
        match lines.next(|| giver.give(std::mem::take(&mut piece))) {
            Ok(Some(line)) => piece.push(line),
            Ok(None) => break,
            Err(status) => {
                giver.give(piece);
                return status;
            }
        }
        if piece.len() == PIECE {
            giver.give(std::mem::take(&mut piece));
        }
    }
    giver.give(piece);
    Status::Fine
}

/// Only a bad line counts for the status, whatever the others' answers, unless
/// they are to count too.
fn answer(checker: &mut Checker, batch: Batch, line: Line) -> (String, Status) {
    let mut text = String::new();
    let form = batch.form();
    let status = match line.asked {
        Ok(Asked { question, pieces }) => {
            let pieces = [&pieces[0][..], &pieces[1]];
            let status = judge(checker, &question, pieces, form, &mut text).status();
            if batch.has_status {
                status
            } else {
                Status::Fine
            }
        }
        Err(reason) => {
            append_trouble(&mut text, form, &reason);
            Status::Trouble
        }
    };
    let text = match (line.id, batch.is_json) {
        (None, _) => text,
        (Some(id), false) => format!("{id}\t{text}"),
        // The object's first member.
        (Some(id), true) => format!("{{\"id\":{},{}", Quoted(&id), &text[1..]),
    };
    (text, status)
}

/// Standard input line by line, or table by table.
struct Lines {
    batch: Batch,
    input: BufReader<StdinLock<'static>>,
    line: Vec<u8>,
    number: u64,
    is_over: bool,
}

impl Lines {
    fn new(batch: Batch) -> Lines {
        Lines {
            batch,
            input: BufReader::with_capacity(1 << 16, io::stdin().lock()),
            line: Vec::new(),
            number: 0,
            is_over: false,
        }
    }

    /// The next table of those that stand one after the other, each as long as its
    /// first four bytes say. After a length that no table has nothing is sure.
    fn next_table(&mut self, mut before_wait: impl FnMut()) -> io::Result<Option<Line>> {
        if self.is_over {
            return Ok(None);
        }
        if self.input.buffer().len() < KEPT_BYTES.min(1 << 12) {
            before_wait();
        }
        let mut table = Vec::new();
        self.input.by_ref().take(4).read_to_end(&mut table)?;
        if table.is_empty() {
            return Ok(None);
        }
        let id = self.batch.has_ids.then(|| self.number.to_string());
        let number = self.number;
        self.number += 1;
        let length = <[u8; 4]>::try_from(&table[..]).map_or(0, u32::from_be_bytes);
        if length as usize >= KEPT_BYTES {
            self.is_over = true;
            let reason = format!(
                "table {number} says that {length} bytes follow, more than any has; nothing after it is read"
            );
            return Ok(Some(Line {
                id,
                asked: Err(reason),
            }));
        }
        let mut rest = self.input.by_ref().take(length.into());
        rest.read_to_end(&mut table)?;
        Ok(Some(Line {
            id,
            asked: Ok(Asked {
                question: Question::Check,
                pieces: [table, Vec::new()],
            }),
        }))
    }

    /// The next line that asks something; none at the end. Before it may have to
    /// wait, it says so.
    fn next(&mut self, mut before_wait: impl FnMut()) -> Result<Option<Line>, Status> {
        let unread = |error: io::Error| {
            complain(&format!("can't read standard input: {error}"));
            Status::Trouble
        };
        if self.batch.is_raw {
            return self.next_table(before_wait).map_err(unread);
        }
        loop {
            if !self.input.buffer().contains(&b'\n') {
                before_wait();
            }
            let is_long = self.read().map_err(unread)?;
            let is_comment = self.line.trim_ascii_start().starts_with(b"#");
            if is_long && !is_comment {
                let reason = format!("line {} has more than {LINE_BYTES} bytes", self.number);
                return Ok(Some(Line {
                    id: None,
                    asked: Err(reason),
                }));
            }
            let line = match self.batch.has_ids {
                true => asked_with_id(&self.line).map(|(id, asked)| Line { id, asked }),
                false => asked(&self.line).map(|asked| Line { id: None, asked }),
            };
            if line.is_some() || self.line.is_empty() {
                return Ok(line);
            }
        }
    }

    /// Reads a line, and tells whether it is too long: then only its front is kept.
    fn read(&mut self) -> io::Result<bool> {
        self.number += 1;
        self.line.clear();
        let mut front = self.input.by_ref().take(LINE_BYTES as u64 + 1);
        front.read_until(b'\n', &mut self.line)?;
        let is_long = self.line.len() > LINE_BYTES && !self.line.ends_with(b"\n");
        if is_long {
            self.input.skip_until(b'\n')?;
        }
        Ok(is_long)
    }
}

/// Writes answers as they come, and counts them.
struct Writer {
    output: Output,
    progress: Progress,
    highest: Status,
}

impl Writer {
    fn new() -> Writer {
        Writer {
            output: Output::new(),
            progress: Progress::new("tables", None, false),
            highest: Status::Fine,
        }
    }

    fn finish(mut self) -> Status {
        self.progress.clear();
        self.highest.max(self.output.finish())
    }
}

impl Taker<(String, Status)> for Writer {
    fn take(&mut self, answers: Vec<(String, Status)>) -> bool {
        for (text, status) in answers {
            self.output.write(text.as_bytes());
            self.progress.count();
            self.highest = self.highest.max(status);
        }
        !self.output.is_closed()
    }

    fn pause(&mut self) {
        self.output.flush();
    }
}
