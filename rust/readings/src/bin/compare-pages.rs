//! A long comparison: `compare-pages SEED COUNT` asks the pages and the second
//! implementation about so many generated tables.

use readings::{case, fixed, with_room, Readers};
use std::collections::BTreeMap;
use std::process::ExitCode;
use std::time::Instant;

fn main() -> ExitCode {
    let Some([seed, count]) = tables::seed_and_count("compare-pages") else {
        return ExitCode::from(2);
    };
    match with_room(move || compare(seed, count)) {
        Ok(()) => ExitCode::SUCCESS,
        Err(text) => {
            println!("difference: {text}");
            ExitCode::FAILURE
        }
    }
}

fn compare(seed: u64, count: u64) -> Result<(), String> {
    let began = Instant::now();
    let mut readers = Readers::new();
    let mut asked: BTreeMap<&str, usize> = BTreeMap::new();
    let generated = (0..count).map(|number| case(seed << 32 | number));
    for case in fixed().into_iter().chain(generated) {
        readers.forget();
        for question in &case.questions {
            if readers.compare(question)?.is_some() {
                *asked.entry(question.function).or_default() += 1;
            }
        }
    }
    for (function, questions) in &asked {
        println!("{questions:>10} {function}");
    }
    let total: usize = asked.values().sum();
    let seconds = began.elapsed().as_secs();
    println!("seed {seed}: {count} tables, {total} questions in {seconds} s, no difference");
    Ok(())
}
