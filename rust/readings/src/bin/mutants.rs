//! `mutants COUNT [EVERY]` puts every mutant that `equal.txt` doesn't list, or
//! every EVERY-th of them, on trial before the fixed tables and COUNT generated
//! ones; it prints those that nothing tells apart. `mutants COUNT EVERY listed`
//! tries those that are listed, none of which must be told apart.

use readings::{case, equal, fixed, mutants, with_room, Case, Readers, Trial};
use std::env;
use std::process::ExitCode;
use std::time::Instant;

const USAGE: &str = "usage: mutants COUNT [EVERY [listed]]";

/// The tables of a round.
const ROUND: u64 = 50;

/// The generated tables begin here.
const SEED: u64 = 7 << 32;

fn main() -> ExitCode {
    let words: Vec<String> = env::args().skip(1).collect();
    let numbers: Vec<usize> = words.iter().flat_map(|word| word.parse().ok()).collect();
    let listed = words.get(2).is_some_and(|word| word == "listed");
    let (count, every) = match numbers[..] {
        [count] if words.len() == 1 => (count, 1),
        [count, every] if words.len() == 2 || listed => (count, every),
        _ => {
            eprintln!("{USAGE}");
            return ExitCode::from(2);
        }
    };
    match with_room(move || try_all(count as u64, every, listed)) {
        Ok(true) => ExitCode::SUCCESS,
        Ok(false) => ExitCode::FAILURE,
        Err(text) => {
            println!("{text}");
            ExitCode::FAILURE
        }
    }
}

fn try_all(count: u64, every: usize, listed: bool) -> Result<bool, String> {
    let began = Instant::now();
    let mut readers = Readers::new();
    let asked = readers.definitions(&fixed())?;
    let program = &readers.pages.program;
    let all = mutants(program, &asked).map_err(|stop| stop.to_string())?;
    println!("{} definitions, {} mutants", asked.len(), all.len());
    let equal = equal();
    let tried = all
        .into_iter()
        .filter(|mutant| equal.contains(&mutant.line()[..]) == listed);
    let tried: Vec<_> = tried.step_by(every).collect();
    let total = tried.len();
    let mut trial = Trial::new(readers, tried);
    trial.ask(fixed())?;
    let progress = |what: &str, trial: &Trial| {
        let left = trial.left().count();
        println!(
            "{what}: {left} left of {total}, {} s",
            began.elapsed().as_secs()
        );
    };
    progress("fixed tables", &trial);
    for first in (0..count).step_by(ROUND as usize) {
        let cases: Vec<Case> = (first..first + ROUND)
            .map(|number| case(SEED + number))
            .collect();
        let useful = trial.ask(cases)?;
        progress(&format!("tables {first}.., useful {useful:?}"), &trial);
    }
    let left = trial.left().count();
    if !listed {
        for (mutant, differs) in trial.left() {
            let words = if differs { "differs" } else { "gives the same" };
            println!("{words}: {}", mutant.line());
        }
    }
    println!("{} of {total} told apart", total - left);
    Ok(if listed { left == total } else { left == 0 })
}
