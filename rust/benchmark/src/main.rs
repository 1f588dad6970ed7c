//! Times both engines and the second implementation on 1,000 tables of 128 rows, or of so many as it
//! is told, on one table of each dear family, or by rows with a picture, in one
//! process and one thread, and prints a page of Markdown.

mod answers;
mod clock;
mod families;
mod memory;
mod plot;
mod times;
mod work;

use std::env;
use std::fmt::Display;
use std::fs;
use std::process::ExitCode;
use stramashly::Checker;
use tables::{checkable, crowded, MAX_ROWS};
use times::{Three, Times};
use work::{Verdict, Work};

const USAGE: &str = "usage: benchmark [REPETITIONS [ROWS]]
       benchmark crowded [REPETITIONS]
       benchmark families [REPETITIONS]
       benchmark growth PICTURE.svg
       benchmark answers [REPETITIONS]";
/// Asks for tables with few places and many rows a place.
const CROWDED: &str = "crowded";
/// Asks for the families.
const FAMILIES: &str = "families";
/// Asks for the other answers than a check's, and for chains.
const ANSWERS: &str = "answers";
/// Asks for times by rows.
const GROWTH: &str = "growth";
const GROWTH_ROWS: [usize; 5] = [8, 16, 32, 64, MAX_ROWS];
const SEED: u64 = 64;
const REPETITIONS: usize = 5;
/// Fewer rows don't have every verdict.
const LEAST_ROWS: usize = 8;

fn main() -> ExitCode {
    let words: Vec<String> = env::args().skip(1).collect();
    let words: Vec<&str> = words.iter().map(String::as_str).collect();
    let result = match words.as_slice() {
        [] => run(REPETITIONS, MAX_ROWS),
        [memory::WORD, implementation] => memory::measure(implementation),
        [CROWDED] => run_crowded(REPETITIONS),
        [CROWDED, repetitions] => number(repetitions).and_then(run_crowded),
        [FAMILIES] => print_families(REPETITIONS),
        [FAMILIES, repetitions] => number(repetitions).and_then(print_families),
        [ANSWERS] => print_answers(REPETITIONS),
        [ANSWERS, repetitions] => number(repetitions).and_then(print_answers),
        [GROWTH, picture] => print_growth(picture),
        [repetitions] => number(repetitions).and_then(|repetitions| run(repetitions, MAX_ROWS)),
        [repetitions, rows] => asked(repetitions, rows),
        _ => Err(USAGE.to_string()),
    };
    match result {
        Ok(()) => ExitCode::SUCCESS,
        Err(reason) => {
            eprintln!("{reason}");
            ExitCode::FAILURE
        }
    }
}

/// How often, from 1 on.
fn number(word: &str) -> Result<usize, String> {
    match word.parse() {
        Ok(number) if number > 0 => Ok(number),
        _ => Err(USAGE.to_string()),
    }
}

fn asked(repetitions: &str, rows: &str) -> Result<(), String> {
    let rows = number(rows)?;
    if !(LEAST_ROWS..=MAX_ROWS).contains(&rows) {
        return Err(USAGE.to_string());
    }
    run(number(repetitions)?, rows)
}

fn run(repetitions: usize, rows: usize) -> Result<(), String> {
    let work = Work::generate(checkable, SEED, rows);
    measure(&work, repetitions, rows)?;
    print_memory(&work)
}

fn run_crowded(repetitions: usize) -> Result<(), String> {
    println!("At most 14 places a table.");
    measure(
        &Work::generate(crowded, SEED, MAX_ROWS),
        repetitions,
        MAX_ROWS,
    )
}

fn measure(work: &Work, repetitions: usize, rows: usize) -> Result<(), String> {
    work::agree(work.all())?;
    let times = Times::take(work, repetitions);
    print_times(work, &times, repetitions, rows);
    Ok(())
}

fn print_times(work: &Work, times: &Times, repetitions: usize, rows: usize) {
    let count = work.total();
    println!("Checks of {count} generated tables of {rows} rows (seed {SEED}), release build,");
    println!("one thread; microseconds a table, median of {repetitions} repetitions.");
    println!();
    println!("| verdict | tables | ours | flags | second | second ÷ ours |");
    println!("|---|---|---|---|---|---|");
    for verdict in Verdict::ALL {
        let count = work.of(verdict).len();
        print_line(verdict.name(), count, count, times.of(verdict));
    }
    print_line("all", count, count, times.in_all());
}

/// Microseconds a table.
fn each(time: u128, count: usize) -> f64 {
    time as f64 / 1000.0 / count as f64
}

/// One line; the times are in nanoseconds of all its tables.
fn print_line(name: &str, what: impl Display, count: usize, times: Three) {
    let ratio = times.second as f64 / times.ours as f64;
    let [ours, flags, second] =
        [times.ours, times.flags, times.second].map(|time| each(time, count));
    println!("| {name} | {what} | {ours:.1} | {flags:.1} | {second:.1} | {ratio:.2} |");
}

fn print_families(repetitions: usize) -> Result<(), String> {
    println!("Checks of a table of {MAX_ROWS} rows of each family, release build, one thread;");
    println!("microseconds, median of {repetitions} repetitions.");
    println!();
    println!("| family | answer | ours | flags | second | second ÷ ours |");
    println!("|---|---|---|---|---|---|");
    for (name, table) in families::all() {
        let table = table.bytes();
        work::agree([&table])?;
        let answer = Checker::new().check(&table).to_string();
        let word = answer.split(' ').next().unwrap_or_default();
        print_line(name, word, 1, times::of_table(&table, repetitions));
    }
    Ok(())
}

fn print_answers(repetitions: usize) -> Result<(), String> {
    println!(
        "{} tables of {MAX_ROWS} rows each, release build, one thread;",
        answers::TABLES
    );
    println!("microseconds a table, median of {repetitions} repetitions.");
    println!();
    println!("| answer | ours | second | second ÷ ours |");
    println!("|---|---|---|---|");
    for (name, ours, second) in answers::times(SEED, repetitions) {
        let ratio = second as f64 / ours as f64;
        let [ours, second] = [ours, second].map(|time| each(time, answers::TABLES));
        println!("| {name} | {ours:.1} | {second:.1} | {ratio:.2} |");
    }
    Ok(())
}

/// Once each: what is shown spans powers of ten.
fn print_growth(picture: &str) -> Result<(), String> {
    println!("Checks of 1,000 generated tables of so many rows, microseconds a table.");
    println!();
    println!("| rows | tables | ours | flags | second | second ÷ ours |");
    println!("|---|---|---|---|---|---|");
    let mut points = Vec::new();
    for rows in GROWTH_ROWS {
        let work = Work::generate(checkable, SEED, rows);
        work::agree(work.all())?;
        let (count, times) = (work.total(), Times::take(&work, 1).in_all());
        print_line(&rows.to_string(), count, count, times);
        let all = [times.ours, times.flags, times.second];
        points.push((rows, all.map(|time| each(time, count))));
    }
    fs::write(picture, plot::svg(&points)).map_err(|error| format!("{picture}: {error}"))
}

fn print_memory(work: &Work) -> Result<(), String> {
    println!();
    println!("Peak memory (VmHWM) of a process that only checks these tables, one after");
    println!("the other; `neither` only reads them.");
    println!();
    println!("| implementation | KiB |");
    println!("|---|---|");
    for implementation in memory::IMPLEMENTATIONS {
        let peak = memory::peak_of(implementation, work)?;
        println!("| {implementation} | {peak} |");
    }
    Ok(())
}
