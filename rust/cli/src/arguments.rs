//! The words of the command line.

use crate::batch::Batch;
use crate::catalogue::{long, COMMANDS, OPTIONS};
use crate::completion::Shell;
use crate::glob::Glob;
use crate::help;
use crate::make::{steps, Making};
use crate::near::meant;
use crate::overview::{Overview, Shape};
use crate::question::{Kind, Question};
use crate::tell::Telling;
use std::collections::BTreeMap;
use std::ffi::{OsStr, OsString};
use std::num::NonZero;

/// What is asked for.
#[derive(Debug, PartialEq, Eq)]
pub enum Command {
    Help,
    /// The lines of one command.
    HelpOf(String),
    Version,
    /// A script for a shell.
    Completion(Shell),
    Files(Request),
    Batch(Batch),
    /// Many runs, summed up.
    Summary(Overview),
}

/// What is to be done with each file.
#[derive(Clone, Debug, PartialEq, Eq)]
pub enum Task {
    Judge(Question),
    Tell(Telling),
    Make(Making),
}

/// Files and what is to be done with them; `-` is standard input.
#[derive(Debug, PartialEq, Eq)]
pub struct Request {
    pub task: Task,
    pub is_hex: bool,
    pub is_json: bool,
    /// Whether all that is found is one SARIF log.
    pub is_sarif: bool,
    pub is_quiet: bool,
    /// Whether the device has availability and visibility chains.
    pub has_chains: bool,
    pub jobs: usize,
    pub names: Vec<OsString>,
    /// The file of the second piece of each table.
    pub then: Option<OsString>,
    /// Which files of directories are taken.
    pub only: Option<Glob>,
    /// A file with more names, a zero byte after each.
    pub listed: Option<OsString>,
    /// Whether bytes may go to a terminal.
    pub is_forced: bool,
}

impl Request {
    /// Whether a directory may stand for the tables in it.
    pub fn takes_directories(&self) -> bool {
        let is_of_one = matches!(
            self.task,
            Task::Judge(Question::Derive { .. } | Question::Accepts { .. })
                | Task::Tell(
                    Telling::Draw { .. }
                        | Telling::Page { .. }
                        | Telling::Why { .. }
                        | Telling::Text
                        | Telling::Lines
                )
                | Task::Make(_)
        );
        !is_of_one
    }

    /// Whether the first word of what is written is an answer.
    pub fn may_be_coloured(&self) -> bool {
        let is_answer = matches!(
            self.task,
            Task::Judge(_) | Task::Tell(Telling::Explain { .. } | Telling::Why { .. })
        );
        is_answer && !self.is_json && !self.is_sarif
    }
}

/// Options by their long names, and the words that are none, in order.
#[derive(Default)]
struct Words {
    options: Vec<&'static str>,
    jobs: Option<usize>,
    /// What was given to an option that takes something.
    values: BTreeMap<&'static str, OsString>,
    others: Vec<OsString>,
}

/// The options that take something, and what that is.
const VALUES: [(&str, &str); 6] = [
    ("--then", "a file of rows"),
    ("--only", "a pattern like '*.table'"),
    ("--files0-from", "a file of names, or `-`"),
    ("--pages", "a folder"),
    ("--baseline", "a file of known findings"),
    ("--against", "a summary as JSON"),
];

impl Words {
    fn value(&self, option: &str) -> Option<OsString> {
        self.values.get(option).cloned()
    }

    fn only(&self) -> Result<Option<Glob>, String> {
        let pattern = self.values.get("--only");
        let glob = pattern.map(|pattern| Glob::new(pattern.as_encoded_bytes()));
        glob.transpose()
    }

    fn has(&self, option: &str) -> bool {
        self.options.contains(&option)
    }

    /// Whether there is any option besides a count of threads and these.
    fn has_others(&self, options: &[&str]) -> bool {
        self.options.iter().any(|option| !options.contains(option))
    }
}

/// The most threads that may be asked for.
const MOST_JOBS: usize = 256;

pub fn parse(words: impl Iterator<Item = OsString>) -> Result<Command, String> {
    let mut words = sort(words)?;
    if words.has("--help") {
        return Ok(Command::Help);
    }
    if words.has("--version") {
        return Ok(Command::Version);
    }
    if words.others.is_empty() {
        return Err("no command given".to_string());
    }
    let name = words.others.remove(0);
    let task = match name.to_str() {
        Some("help") => return help(&words),
        Some("batch") => return batch(&words),
        Some("summary") => return summary(words),
        Some("completion") => return completion(&words),
        Some("fill") if words.has("--table") => Task::Make(Making::Filled),
        Some("make") => Task::Make(Making::Read),
        Some("edit") => Task::Make(Making::Edited(steps(&rest(&mut words.others)?)?)),
        Some("show") => Task::Tell(match (words.has("--text"), words.has("--json-lines")) {
            (false, false) => Telling::Show,
            (true, false) => Telling::Text,
            (false, true) => Telling::Lines,
            (true, true) => return Err("--text or --json-lines, not both".to_string()),
        }),
        Some("explain") => Task::Tell(explanation(&words)?),
        Some("draw") => Task::Tell(Telling::Draw {
            is_all: words.has("--all"),
        }),
        _ => {
            let kind = Kind::named(name.as_encoded_bytes()).filter(|kind| kind.takes_files());
            let kind = kind.ok_or_else(|| no_command(&name))?;
            match question(kind, &mut words.others)? {
                Question::Derive { first, second } if words.has("--words") => {
                    Task::Tell(Telling::Why { first, second })
                }
                question => Task::Judge(question),
            }
        }
    };
    files(&name, task, words)
}

fn no_command(name: &OsStr) -> String {
    let commands = COMMANDS.iter().map(|entry| entry.name);
    let meant = meant(&name.to_string_lossy(), commands);
    format!("no command is called {name:?}{meant}")
}

/// How an answer is explained.
fn explanation(words: &Words) -> Result<Telling, String> {
    let is_all = words.has("--all");
    match (words.has("--html"), words.has("--json")) {
        (true, true) => Err("--html or --json, not both".to_string()),
        (true, false) => Ok(Telling::Page { is_all }),
        (false, true) if is_all => Err("explain --json has all without --all".to_string()),
        (false, true) => Ok(Telling::Object),
        (false, false) => Ok(Telling::Explain { is_all }),
    }
}

/// The question, from the words after the file of a command that takes one
/// file and words. They are taken out.
fn question(kind: Kind, others: &mut Vec<OsString>) -> Result<Question, String> {
    if !kind.takes_words() {
        return kind.question(&[]);
    }
    let words = rest(others)?;
    kind.question(&words.iter().map(String::as_str).collect::<Vec<_>>())
}

/// The words after the file, taken out.
fn rest(others: &mut Vec<OsString>) -> Result<Vec<String>, String> {
    let words = others.split_off(others.len().min(1)).into_iter();
    let words = words.map(OsString::into_string);
    words
        .map(|word| word.map_err(|word| format!("{word:?} is neither number nor word")))
        .collect()
}

/// Sets the options apart; after `--` there are none.
fn sort(words: impl Iterator<Item = OsString>) -> Result<Words, String> {
    let mut sorted = Words::default();
    let mut are_options_over = false;
    let mut words = words;
    while let Some(word) = words.next() {
        let is_option = word.as_encoded_bytes().starts_with(b"-") && word != "-";
        if are_options_over || !is_option {
            sorted.others.push(word);
            continue;
        }
        let text = word.to_str().unwrap_or_default();
        if text == "--" {
            are_options_over = true;
            continue;
        }
        // The count of threads may stand in the same word.
        let count = text.strip_prefix("--jobs=").or(text.strip_prefix("-j"));
        if let Some(count) = count.filter(|_| text != "-j") {
            sorted.jobs = Some(jobs(count)?);
            continue;
        }
        // So may what another option takes.
        let (text, equal) = match text.split_once('=') {
            Some((option, equal)) => (option, Some(equal)),
            None => (text, None),
        };
        let unknown = || {
            let options = OPTIONS.iter().map(|(option, _)| *option);
            format!("no option is called {word:?}{}", meant(text, options))
        };
        match long(text).ok_or_else(unknown)? {
            "--jobs" => {
                let count = words.next();
                let count = count.as_ref().and_then(|count| count.to_str());
                sorted.jobs = Some(jobs(count.unwrap_or_default())?);
            }
            "--then" if sorted.has("--then") => {
                return Err("--then given twice: a table has two pieces".to_string());
            }
            option => {
                if let Some((_, what)) = VALUES.iter().find(|(name, _)| *name == option) {
                    let given = equal.map(OsString::from).or_else(|| words.next());
                    let given = given.ok_or_else(|| format!("{option} takes {what}"))?;
                    sorted.values.insert(option, given);
                } else if equal.is_some() {
                    return Err(format!("{option} takes nothing"));
                }
                sorted.options.push(option);
            }
        }
    }
    Ok(sorted)
}

fn jobs(word: &str) -> Result<usize, String> {
    let are_digits = word.bytes().all(|letter| letter.is_ascii_digit());
    let count = word.parse().ok().filter(|_| are_digits);
    let count = count.filter(|count| (1..=MOST_JOBS).contains(count));
    count.ok_or_else(|| format!("-j takes a number from 1 to {MOST_JOBS}, not {word:?}"))
}

fn help(words: &Words) -> Result<Command, String> {
    match &words.others[..] {
        [] => Ok(Command::Help),
        [name] => match name.to_str().filter(|name| help::of(name).is_some()) {
            Some(name) => Ok(Command::HelpOf(name.to_string())),
            None => Err(no_command(name)),
        },
        _ => Err("help takes one command, or a refusal's number".to_string()),
    }
}

fn completion(words: &Words) -> Result<Command, String> {
    let bad = || "completion takes a shell: bash, zsh or fish".to_string();
    if words.has_others(&[]) {
        return Err("completion takes no options".to_string());
    }
    match &words.others[..] {
        [name] => {
            let shell = name.to_str().and_then(Shell::named);
            shell.map(Command::Completion).ok_or_else(bad)
        }
        _ => Err(bad()),
    }
}

/// How many threads work if nobody says it: a log is whole only at its end, so that
/// all may.
fn threads(is_log: bool) -> usize {
    let all = std::thread::available_parallelism().map_or(1, NonZero::get);
    if is_log {
        all.min(MOST_JOBS)
    } else {
        1
    }
}

/// The options that not all commands take, in the order in which they are told.
const BOUND: [&str; 21] = [
    "--html",
    "--all",
    "--json",
    "--sarif",
    "--table",
    "--text",
    "--json-lines",
    "--words",
    "--chains",
    "--then",
    "--quiet",
    "--only",
    "--files0-from",
    "--force",
    "--csv",
    "--pages",
    "--baseline",
    "--against",
    "--raw",
    "--ids",
    "--status",
];

/// What goes with which command, and with what it is to do.
fn check_options(name: &OsStr, task: &Task, words: &Words) -> Result<(), String> {
    let entry = COMMANDS.iter().find(|entry| name == entry.name);
    let takes = |option| entry.is_some_and(|entry| entry.options.contains(option));
    // These are about answers, which a new table and sentences about moments aren't.
    let others = ["--json", "--quiet", "--then"];
    let is_answer = !matches!(task, Task::Make(_) | Task::Tell(Telling::Why { .. }));
    for option in BOUND.iter().filter(|option| words.has(option)) {
        if !takes(option) || !is_answer && others.contains(option) {
            return Err(format!("only {}", takers(option)));
        }
        if *option == "--sarif" && others.iter().any(|other| words.has(other)) {
            return Err("--sarif goes without --json, --quiet and --then".to_string());
        }
    }
    Ok(())
}

/// The commands that take an option, by the catalogue.
fn takers(option: &str) -> String {
    if matches!(option, "--text" | "--json-lines") {
        return "show takes --text and --json-lines".to_string();
    }
    let takers = COMMANDS
        .iter()
        .filter(|entry| entry.options.contains(&option));
    let mut names: Vec<&str> = takers.map(|entry| entry.name).collect();
    if option == "--all" {
        names.reverse();
    }
    match &names[..] {
        [name] => format!("{name} takes {option}"),
        [names @ .., last] => format!("{} and {last} take {option}", names.join(", ")),
        [] => String::new(),
    }
}

fn files(name: &OsStr, task: Task, words: Words) -> Result<Command, String> {
    check_options(name, &task, &words)?;
    let request = Request {
        task,
        is_hex: words.has("--hex"),
        is_json: words.has("--json"),
        is_sarif: words.has("--sarif"),
        is_quiet: words.has("--quiet"),
        has_chains: words.has("--chains"),
        jobs: words.jobs.unwrap_or_else(|| threads(words.has("--sarif"))),
        then: words.value("--then"),
        only: words.only()?,
        listed: words.value("--files0-from"),
        is_forced: words.has("--force"),
        names: words.others,
    };
    if request.is_forced && !matches!(request.task, Task::Make(_)) {
        return Err("fill takes --force with --table".to_string());
    }
    let is_many = request.only.is_some() || request.listed.is_some();
    if is_many && !request.takes_directories() {
        return Err("--only and --files0-from are for many files, and this takes one".to_string());
    }
    let names = &request.names;
    if names.is_empty() && request.listed.is_none() {
        return Err("no file given".to_string());
    }
    // Two documents in a row are none.
    if !request.takes_directories() && names.len() > 1 {
        return Err("a picture, a page, a text or a new table is of one file".to_string());
    }
    // It can only be read once; and a second piece is read with each table.
    if request.then.as_ref().is_some_and(|name| name == "-") && names.len() > 1 {
        return Err("--then - goes with one file".to_string());
    }
    let all = names.iter().chain(&request.then).chain(&request.listed);
    if all.filter(|name| *name == "-").count() > 1 {
        return Err("standard input given twice".to_string());
    }
    Ok(Command::Files(request))
}

fn batch(words: &Words) -> Result<Command, String> {
    if !words.others.is_empty() {
        return Err("batch takes no file: tables come on standard input".to_string());
    }
    takes_only(words, "batch")?;
    Ok(Command::Batch(Batch {
        is_json: words.has("--json"),
        has_chains: words.has("--chains"),
        has_ids: words.has("--ids"),
        is_raw: words.has("--raw"),
        has_status: words.has("--status"),
        jobs: words.jobs.unwrap_or(1),
    }))
}

/// Holds a command to the options that the catalogue has for it.
fn takes_only(words: &Words, name: &str) -> Result<(), String> {
    let entry = COMMANDS.iter().find(|entry| entry.name == name);
    let options = entry.map_or(&[][..], |entry| entry.options);
    match words.has_others(options) {
        true => Err(format!("{name} takes no option but {}", options.join(", "))),
        false => Ok(()),
    }
}

fn summary(words: Words) -> Result<Command, String> {
    takes_only(&words, "summary")?;
    let form = match ["--csv", "--json", "--html"].map(|form| words.has(form)) {
        [false, false, false] => Shape::Plain,
        [true, false, false] => Shape::Csv,
        [false, true, false] => Shape::Json,
        [false, false, true] => Shape::Html,
        _ => return Err("--csv, --json or --html, one of them".to_string()),
    };
    let overview = Overview {
        listed: words.value("--files0-from"),
        only: words.only()?,
        form,
        pages: words.value("--pages"),
        baseline: words.value("--baseline"),
        against: words.value("--against"),
        is_hex: words.has("--hex"),
        has_chains: words.has("--chains"),
        jobs: words.jobs.unwrap_or(1),
        names: words.others,
    };
    if overview.pages.is_some() && form != Shape::Html {
        return Err("--pages goes with --html".to_string());
    }
    if overview.names.is_empty() && overview.listed.is_none() {
        return Err("no file given".to_string());
    }
    let inputs = overview.names.iter().chain(&overview.listed);
    if inputs.filter(|name| *name == "-").count() > 1 {
        return Err("standard input given twice".to_string());
    }
    Ok(Command::Summary(overview))
}

#[cfg(test)]
mod tests;
