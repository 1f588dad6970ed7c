//! `summary`: many runs at once, counted, grouped and compared with earlier ones.

mod html;
mod known;
mod show;
mod tally;

use crate::answers::Answer;
use crate::folder::{self, Named};
use crate::found::{conflicting, found, Found};
use crate::glob::Glob;
use crate::output::{complain, Output};
use crate::parallel::{in_order, Giver, Taker};
use crate::progress::Progress;
use crate::read::{listed, read_named};
use crate::Status;
use known::Earlier;
use std::ffi::OsString;
use std::sync::atomic::AtomicBool;
use stramashly::{CheckAnswer, Checker, ReportAnswer};
use tally::Tally;

/// So many files go to a thread at once.
const PIECE: usize = 64;

/// Which runs are summed up, and how.
#[derive(Clone, Debug, Default, PartialEq, Eq)]
pub struct Overview {
    pub names: Vec<OsString>,
    /// A file with more names, a zero byte after each.
    pub listed: Option<OsString>,
    pub only: Option<Glob>,
    pub form: Shape,
    /// A folder for the pages of runs that the page names.
    pub pages: Option<OsString>,
    /// Findings that are known.
    pub baseline: Option<OsString>,
    /// An earlier summary.
    pub against: Option<OsString>,
    pub is_hex: bool,
    pub has_chains: bool,
    pub jobs: usize,
}

/// How a summary is written.
#[derive(Clone, Copy, Debug, Default, PartialEq, Eq)]
pub enum Shape {
    #[default]
    Plain,
    /// A line for each run.
    Csv,
    Json,
    Html,
}

/// What came of a run.
pub struct Run {
    pub name: OsString,
    /// The answer's first word.
    pub verdict: Verdict,
    pub status: Status,
    /// What a check answered, or why there is no answer.
    pub answer: String,
    /// Conflicting and racing pairs, of a run that could have happened.
    pub pairs: Option<(u64, u64)>,
    pub found: Option<Found>,
}

/// Verdicts, in the order in which they are told.
#[derive(Clone, Copy, Debug, PartialEq, Eq, PartialOrd, Ord)]
pub enum Verdict {
    RaceFree,
    Race,
    Cycle,
    Overwritten,
    Refused,
    Unread,
}

impl Verdict {
    pub const ALL: [Verdict; 6] = [
        Verdict::RaceFree,
        Verdict::Race,
        Verdict::Cycle,
        Verdict::Overwritten,
        Verdict::Refused,
        Verdict::Unread,
    ];

    pub fn name(self) -> &'static str {
        match self {
            Verdict::RaceFree => "race-free",
            Verdict::Race => "race",
            Verdict::Cycle => "cycle",
            Verdict::Overwritten => "overwritten",
            Verdict::Refused => "refused",
            Verdict::Unread => "unread",
        }
    }
}

/// Sums the runs up; the status is that of a check of them all, known findings
/// aside.
pub fn run(overview: &Overview) -> Status {
    match prepared(overview) {
        Ok((files, earlier)) => summed_up(overview, files, earlier),
        Err(reason) => {
            complain(&reason);
            Status::Trouble
        }
    }
}

/// The files, and what is known of earlier ones.
fn prepared(overview: &Overview) -> Result<(Files, Earlier), String> {
    let mut names = overview.names.clone();
    if let Some(list) = &overview.listed {
        names.extend(listed(list)?);
    }
    let expanded = folder::expanded(&names, overview.only.as_ref());
    let earlier = Earlier::read(overview)?;
    Ok((
        Files {
            left_out: expanded.left_out(),
            names: expanded.files,
        },
        earlier,
    ))
}

struct Files {
    names: Vec<Named>,
    left_out: Option<String>,
}

fn summed_up(overview: &Overview, files: Files, earlier: Earlier) -> Status {
    let total = files.names.len();
    let (names, left_out) = (files.names, files.left_out);
    let writer = || Writer::new(overview, total);
    let finish = |writer: Writer| writer.finish(&earlier, left_out);
    if overview.jobs == 1 {
        let mut checker = Checker::new().with_chains(overview.has_chains);
        let mut writer = writer();
        for name in names {
            writer.add(judged(overview, &mut checker, name));
        }
        return finish(writer);
    }
    let give = |giver: &mut Giver<Named>, _: &AtomicBool| {
        let mut names = names.into_iter().peekable();
        while names.peek().is_some() {
            giver.give(names.by_ref().take(PIECE).collect());
        }
    };
    let work = |checker: &mut Checker, name| judged(overview, checker, name);
    let threads = (overview.jobs, || {
        Checker::new().with_chains(overview.has_chains)
    });
    in_order(threads, give, work, writer, finish).1
}

/// A run, judged by the proved library: a check of each, and a report of those
/// that race. A race-free one has as many conflicting pairs as its rows say.
fn judged(overview: &Overview, checker: &mut Checker, name: Named) -> Run {
    let given = match name {
        Ok(name) => {
            let given = read_named(&name, overview.is_hex);
            given
                .map_err(|reason| (name.clone(), reason.to_string()))
                .map(|given| (name, given))
        }
        Err(unread) => Err(unread),
    };
    let (name, given) = match given {
        Ok(given) => given,
        Err((name, reason)) => {
            return Run {
                name,
                verdict: Verdict::Unread,
                status: Status::Trouble,
                answer: reason,
                pairs: None,
                found: None,
            }
        }
    };
    let answer = checker.check(&given.table);
    let found = found(&given.table, &given.notes, &answer);
    let (status, words) = (answer.verdict().status(), answer.to_string());
    let verdict = match answer {
        CheckAnswer::RaceFree => Verdict::RaceFree,
        CheckAnswer::Race { .. } => Verdict::Race,
        CheckAnswer::Cycle { .. } => Verdict::Cycle,
        CheckAnswer::Overwritten { .. } => Verdict::Overwritten,
        _ => Verdict::Refused,
    };
    let pairs = match verdict {
        Verdict::RaceFree => Some((conflicting(&given.table), 0)),
        Verdict::Race => match checker.report(&given.table) {
            ReportAnswer::Report(report) => Some((report.conflicting.into(), report.racing.into())),
            _ => None,
        },
        _ => None,
    };
    Run {
        name,
        verdict,
        status,
        answer: words,
        pairs,
        found,
    }
}

/// Takes runs in order.
struct Writer<'a> {
    overview: &'a Overview,
    tally: Tally,
    progress: Progress,
    output: Output,
}

impl Writer<'_> {
    fn new(overview: &Overview, total: usize) -> Writer<'_> {
        let mut output = Output::new();
        if overview.form == Shape::Csv {
            output.write(show::CSV_HEAD.as_bytes());
        }
        let is_silent = overview.form != Shape::Csv;
        Writer {
            overview,
            tally: Tally::default(),
            progress: Progress::new("files", Some(total), is_silent),
            output,
        }
    }

    fn add(&mut self, run: Run) {
        if run.verdict == Verdict::Unread {
            self.progress.clear();
            complain(&format!("{}: {}", run.name.to_string_lossy(), run.answer));
        }
        if self.overview.form == Shape::Csv {
            self.output.write(show::csv(&run).as_bytes());
        }
        self.tally.add(run);
        self.progress.count();
    }
}

impl Writer<'_> {
    /// Writes the summary of all that was added.
    fn finish(mut self, earlier: &Earlier, left_out: Option<String>) -> Status {
        self.progress.clear();
        if let Some(left_out) = left_out {
            complain(&left_out);
        }
        let tally = &self.tally;
        let text = match self.overview.form {
            Shape::Csv => String::new(),
            Shape::Plain => show::plain(tally, earlier),
            Shape::Json => show::json(tally, earlier),
            Shape::Html => html::page(tally, earlier, self.overview),
        };
        self.output.write(text.as_bytes());
        self.tally.status(earlier).max(self.output.finish())
    }
}

impl Taker<Run> for Writer<'_> {
    fn take(&mut self, runs: Vec<Run>) -> bool {
        runs.into_iter().for_each(|run| self.add(run));
        true
    }

    fn pause(&mut self) {}
}
