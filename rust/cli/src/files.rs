//! Files, one table each: judged, told in words and pictures, or made into
//! another table.

use crate::arguments::{Request, Task};
use crate::colour;
use crate::folder::{self, Named};
use crate::judge::{append_trouble, judge, Form};
use crate::make::{hex_line, make};
use crate::moments::absent;
use crate::output::{complain, Output};
use crate::parallel::{in_order, Giver, Taker};
use crate::progress::Progress;
use crate::question::Question;
use crate::read::{listed, read, second, Given, Unread};
use crate::sarif::{log, notification, results, Origin};
use crate::summary::Summary;
use crate::tell::{tell, Told};
use crate::verdict::Verdict;
use crate::Status;
use format::{digits, Object};
use std::ffi::OsString;
use std::io::{self, IsTerminal};
use std::sync::atomic::AtomicBool;
use stramashly::{Checker, DeriveAnswer};

/// So many files go to a thread at once.
const PIECE: usize = 8;

/// What came of a file.
struct Outcome {
    name: OsString,
    /// What the bytes begin with, if that is an answer.
    verdict: Option<Verdict>,
    status: Status,
    /// For standard output.
    bytes: Vec<u8>,
    /// For standard error, with the place in the file if there is one.
    reason: Option<Unread>,
    /// What a refused file looks like, told before its refusal.
    likeness: Option<&'static str>,
}

/// Judges every file, also after one that can't be read and after nobody
/// reads the answers any more, so that the status is that of them all.
pub fn run(request: &Request) -> Status {
    let is_many = request.takes_directories();
    let mut given = request.names.clone();
    if let Some(list) = &request.listed {
        match listed(list) {
            Ok(names) => given.extend(names),
            Err(reason) => {
                complain(&reason);
                return Status::Trouble;
            }
        }
    }
    let mut left_out = None;
    let are_named =
        request.listed.is_some() || given.len() > 1 || is_many && folder::has_directory(&given);
    let names: Vec<Named> = if is_many {
        let expanded = folder::expanded(&given, request.only.as_ref());
        left_out = expanded.left_out();
        expanded.files
    } else {
        given.into_iter().map(Ok).collect()
    };
    let total = names.len();
    let writer = || Writer::new(request, are_named, total, left_out);
    let checker = || Checker::new().with_chains(request.has_chains);
    if request.jobs == 1 {
        let mut checker = checker();
        let mut writer = writer();
        for name in names {
            writer.write(outcome(request, are_named, &mut checker, name));
        }
        return writer.finish();
    }
    let give = |giver: &mut Giver<Named>, _: &AtomicBool| {
        let mut names = names.into_iter().peekable();
        while names.peek().is_some() {
            giver.give(names.by_ref().take(PIECE).collect());
        }
    };
    let work = |checker: &mut Checker, name| outcome(request, are_named, checker, name);
    let threads = (request.jobs, checker);
    in_order(threads, give, work, writer, Writer::finish).1
}

/// Writes outcomes in order, and sums them up.
struct Writer<'a> {
    request: &'a Request,
    are_named: bool,
    is_coloured: bool,
    output: Output,
    summary: Summary,
    /// What directories had besides.
    left_out: Option<String>,
    progress: Progress,
    highest: Status,
    /// For the SARIF log.
    results: Vec<String>,
    notifications: Vec<Object>,
}

impl Writer<'_> {
    fn new(
        request: &Request,
        are_named: bool,
        total: usize,
        left_out: Option<String>,
    ) -> Writer<'_> {
        Writer {
            request,
            are_named,
            is_coloured: request.may_be_coloured() && colour::is_wanted(),
            output: Output::new(),
            summary: Summary::default(),
            left_out,
            progress: Progress::new("files", Some(total), request.is_sarif || request.is_quiet),
            highest: Status::Fine,
            results: Vec::new(),
            notifications: Vec::new(),
        }
    }

    fn write(&mut self, outcome: Outcome) {
        self.highest = self.highest.max(outcome.status);
        self.progress.count();
        if outcome.reason.is_some() || outcome.likeness.is_some() {
            self.progress.clear();
        }
        if self.request.is_sarif {
            return self.keep(outcome);
        }
        let is_plain = !self.request.is_json;
        if self.would_spoil_a_terminal(&outcome.bytes) {
            self.highest = Status::Trouble;
            let where_to =
                "`> FILE` writes them there, --hex writes digits, --force writes them here";
            return complain(&format!(
                "a table's bytes aren't for a terminal: {where_to}"
            ));
        }
        self.summary.count(outcome.verdict);
        if let Some(likeness) = outcome.likeness {
            self.output.flush();
            complain(&format!("{}: {likeness}", outcome.name.to_string_lossy()));
        }
        if !outcome.bytes.is_empty() && !self.request.is_quiet {
            if self.are_named && is_plain {
                self.output.write(outcome.name.as_encoded_bytes());
                self.output.write(b": ");
            }
            match (outcome.verdict, std::str::from_utf8(&outcome.bytes)) {
                (Some(verdict), Ok(text)) if self.is_coloured => {
                    self.output.write(verdict.painted(text).as_bytes());
                }
                _ => self.output.write(&outcome.bytes),
            }
        }
        if let Some(reason) = outcome.reason {
            // Keeps answers and messages in order on a terminal.
            self.output.flush();
            complain(&reason.of(&outcome.name.to_string_lossy()));
        }
    }

    /// Whether these are bytes that nobody wants on the screen.
    fn would_spoil_a_terminal(&self, bytes: &[u8]) -> bool {
        let is_made = matches!(self.request.task, Task::Make(_)) && !self.request.is_forced;
        is_made && bytes.contains(&0) && io::stdout().is_terminal()
    }

    /// Keeps an outcome for the log, which is written at the end.
    fn keep(&mut self, outcome: Outcome) {
        let text = String::from_utf8_lossy(&outcome.bytes);
        self.results.extend(text.lines().map(str::to_string));
        if let Some(reason) = outcome.reason {
            let file = outcome.name.to_string_lossy();
            complain(&reason.of(&file));
            self.notifications.push(notification(&file, &reason));
        }
    }

    fn finish(mut self) -> Status {
        self.progress.clear();
        if self.request.is_sarif {
            let log = log(&self.results, &self.notifications);
            self.output.write(log.as_bytes());
            return self.highest.max(self.output.finish());
        }
        let is_judged = matches!(self.request.task, Task::Judge(_));
        let is_plain = !self.request.is_json && !self.request.is_quiet;
        if self.are_named && is_judged && is_plain {
            self.output.flush();
            complain(&self.summary.text());
        }
        if let Some(left_out) = self.left_out.as_ref().filter(|_| !self.request.is_quiet) {
            self.output.flush();
            complain(left_out);
        }
        self.highest.max(self.output.finish())
    }
}

impl Taker<Outcome> for Writer<'_> {
    fn take(&mut self, outcomes: Vec<Outcome>) -> bool {
        outcomes.into_iter().for_each(|outcome| self.write(outcome));
        true
    }

    fn pause(&mut self) {
        self.output.flush();
    }
}

/// What there is to say of a file.
fn outcome(request: &Request, are_named: bool, checker: &mut Checker, name: Named) -> Outcome {
    let (name, given) = match name {
        Ok(name) => {
            let given = read(&name, request);
            let given = given.and_then(|given| Ok((given, second(request)?)));
            (name, given)
        }
        Err((name, reason)) => (name, Err(reason.into())),
    };
    // A name that is no text can't be an object's as it is.
    let file = name.to_string_lossy().into_owned();
    let form = |notes| match request.is_json {
        true => Form::Json {
            file: are_named.then_some(&*file),
            notes,
        },
        false => Form::Plain,
    };
    let mut likeness = None;
    let ((verdict, status), bytes, reason) = match given {
        Ok((given, second)) => {
            likeness = given.likeness;
            let notes = given.notes.clone();
            let form = form(Some(&notes));
            answer(request, (&file, form), (given, second.as_deref()), checker)
        }
        Err(reason) => {
            let mut text = String::new();
            if request.is_json {
                append_trouble(&mut text, form(None), &reason.to_string());
            }
            ((None, Status::Trouble), text.into_bytes(), Some(reason))
        }
    };
    let bytes = match name.to_str() {
        None if request.is_json && are_named && bytes.starts_with(b"{") => {
            // What is shown of the name can't be traced back to it.
            let digits = digits(name.as_encoded_bytes());
            let begin = format!("{{\"fileBytes\":\"{digits}\",");
            [begin.as_bytes(), &bytes[1..]].concat()
        }
        _ => bytes,
    };
    Outcome {
        name,
        verdict,
        status,
        bytes,
        reason,
        likeness: likeness.filter(|_| status == Status::Refused && !request.is_quiet),
    }
}

/// The answer, and what is told besides.
fn answer(
    request: &Request,
    (name, form): (&str, Form),
    (given, second): (Given, Option<&[u8]>),
    checker: &mut Checker,
) -> (Told, Vec<u8>, Option<Unread>) {
    let mut text = String::new();
    match &request.task {
        Task::Judge(_) if request.is_sarif => {
            let origin = Origin {
                file: (name != "-").then_some(name),
                is_hex: request.is_hex,
            };
            let (verdict, text) = results(&given, &origin, checker);
            ((Some(verdict), verdict.status()), text.into_bytes(), None)
        }
        Task::Judge(question) => {
            let pieces = [&given.table[..], second.unwrap_or_default()];
            let verdict = judge(checker, question, pieces, form, &mut text);
            let told = match verdict {
                Verdict::Refused if !request.is_quiet && !request.is_json => {
                    absent_moment(question, pieces, checker)
                }
                _ => None,
            };
            let told = told.map(Unread::from);
            ((Some(verdict), verdict.status()), text.into_bytes(), told)
        }
        Task::Tell(telling) => {
            let given = given.joined(second, checker);
            let file = form.file();
            match given.and_then(|given| tell(checker, *telling, (&given, file), &mut text)) {
                Ok(told) => (told, text.into_bytes(), None),
                Err(reason) => ((None, Status::Refused), Vec::new(), Some(reason.into())),
            }
        }
        Task::Make(making) => match make(checker, making, &given) {
            Ok(made) if request.is_hex => {
                let digits = hex_line(&made.table).into_bytes();
                ((None, made.status), digits, made.told.map(Unread::from))
            }
            Ok(made) => ((None, made.status), made.table, made.told.map(Unread::from)),
            Err((status, reason)) => ((None, status), Vec::new(), Some(reason)),
        },
    }
}

/// Which of two moments isn't there, where that is why there is no derivation.
fn absent_moment(question: &Question, pieces: [&[u8]; 2], checker: &mut Checker) -> Option<String> {
    let (first, second) = match question {
        Question::Derive { first, second } => (*first, *second),
        Question::Accepts { first, second, .. } => (*first, *second),
        _ => return None,
    };
    let answer = checker.derive(pieces, first, second);
    if !matches!(answer, DeriveAnswer::Refused { number: 12, .. }) {
        return None;
    }
    let table = match pieces[1] {
        [] => pieces[0].to_vec(),
        _ => words::joined(pieces).ok()?,
    };
    absent(&table, first, second)
}
