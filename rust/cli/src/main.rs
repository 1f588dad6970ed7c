//! The command line: tables from files or standard input, answers as lines.

mod answers;
mod arguments;
mod batch;
mod catalogue;
mod colour;
mod completion;
mod explained;
mod files;
mod fixes;
mod folder;
mod found;
mod glob;
mod help;
mod input;
mod judge;
mod line;
mod make;
mod moments;
mod near;
mod output;
mod overview;
mod parallel;
mod progress;
mod question;
mod races;
mod read;
mod sarif;
mod summary;
mod tell;
mod verdict;
mod writing;

use arguments::Command;
use output::{complain, Output};
use std::process::ExitCode;

/// Exit statuses; of several, the highest counts.
#[derive(Clone, Copy, Debug, PartialEq, Eq, PartialOrd, Ord)]
enum Status {
    Fine = 0,
    /// A race, not before, not accepted.
    No = 1,
    Inconsistent = 2,
    Refused = 3,
    Trouble = 4,
}

/// The version, then the commit of the sources and the kit that the library was
/// proved with.
const VERSION: &str = concat!(
    "stramashly ",
    env!("CARGO_PKG_VERSION"),
    "\ncommit ",
    env!("STRAMASHLY_BUILT_COMMIT"),
    "\nlibrary proved with ",
    env!("STRAMASHLY_BUILT_KIT"),
    "\n"
);

fn main() -> ExitCode {
    let status = match arguments::parse(std::env::args_os().skip(1)) {
        Ok(Command::Help) => print(help::TEXT),
        Ok(Command::Version) => print(VERSION),
        Ok(Command::Files(request)) => files::run(&request),
        Ok(Command::HelpOf(name)) => print(&help::of(&name).unwrap_or_default()),
        Ok(Command::Completion(shell)) => print(&completion::script(shell)),
        Ok(Command::Batch(batch)) => batch::run(batch),
        Ok(Command::Summary(overview)) => overview::run(&overview),
        Err(reason) => {
            complain(&format!("{reason}; try `stramashly --help`"));
            Status::Trouble
        }
    };
    ExitCode::from(status as u8)
}

fn print(text: &str) -> Status {
    let mut output = Output::new();
    output.write(text.as_bytes());
    output.finish()
}
