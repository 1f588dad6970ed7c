//! A long comparison: `soak SEED COUNT` compares so many generated tables.

use differential::{Comparison, Difference, Tally};
use second::Chains;
use std::io::{self, IsTerminal, Write};
use std::process::ExitCode;
use std::time::Instant;
use tables::{
    chained, chained_fillable, checkable, damaged, damaged_hosted, fillable, hosted,
    hosted_fillable, Random, Size, MAX_ROWS,
};

fn main() -> ExitCode {
    let Some([seed, count]) = tables::seed_and_count("soak") else {
        return ExitCode::from(2);
    };
    let began = Instant::now();
    let mut tally = Tally::default();
    match compare(seed, count, &mut tally) {
        Ok(()) => {
            let seconds = began.elapsed().as_secs();
            print!("{tally}");
            println!("seed {seed}: {count} tables in {seconds} s, no difference");
            ExitCode::SUCCESS
        }
        Err(Difference(text)) => {
            println!("seed {seed}: difference: {text}");
            ExitCode::FAILURE
        }
    }
}

fn compare(seed: u64, count: u64, tally: &mut Tally) -> Result<(), Difference> {
    let mut random = Random::new(seed);
    let mut comparison = Comparison::new(seed);
    let is_shown = io::stderr().is_terminal();
    for done in 0..count {
        if is_shown && done % 10_000 == 0 {
            let _ = write!(io::stderr(), "\r{done} of {count} tables");
        }
        compare_one(&mut random, &mut comparison, tally)?;
    }
    if is_shown {
        let _ = writeln!(io::stderr());
    }
    Ok(())
}

/// Half of the tables for a check and a report, a third for a fill, the rest damaged; of each two
/// pairs of moments, its rows stepped through, its values read back and written, at times the table in two
/// pieces.
fn compare_one(
    random: &mut Random,
    comparison: &mut Comparison,
    tally: &mut Tally,
) -> Result<(), Difference> {
    let size = size(random);
    let (bytes, is_check) = match random.below(6) {
        _ if random.percent(30) => hosted_table(random, size),
        0..=2 if random.percent(15) => (chained(random, size).bytes(), true),
        0..=2 => (checkable(random, size).bytes(), true),
        3 | 4 if random.percent(15) => (chained_fillable(random, size).bytes(), false),
        3 | 4 => (fillable(random, size).bytes(), false),
        _ => (damaged(random, size), random.percent(50)),
    };
    let chains = if random.percent(40) {
        Chains::On
    } else {
        Chains::Off
    };
    if is_check {
        tally.check(&comparison.check_with(chains, &bytes)?);
        tally.report(&comparison.report_with(chains, &bytes)?);
    } else {
        tally.fill(&comparison.fill_with(chains, &bytes)?);
    }
    comparison.write_and_step(random, &bytes, tally)?;
    if random.percent(25) {
        comparison.cut_anywhere(random, chains, &bytes, tally)?;
    }
    compare_moments(random, comparison, tally, &bytes)
}

fn hosted_table(random: &mut Random, size: Size) -> (Vec<u8>, bool) {
    match random.below(6) {
        0..=2 => (hosted(random, size).bytes(), true),
        3 | 4 => (hosted_fillable(random, size).bytes(), false),
        _ => (damaged_hosted(random, size), random.percent(50)),
    }
}

/// Any pair, and one that only a chain can order.
fn compare_moments(
    random: &mut Random,
    comparison: &mut Comparison,
    tally: &mut Tally,
    table: &[u8],
) -> Result<(), Difference> {
    let mut moments = comparison.moments_of(table);
    // Every row has its own moment; few have one before or after it.
    let rows = moments.count() / 3;
    let mut number = || (3 * random.below(rows + 1) + random.pick(&[0, 1, 1, 1, 2])) as u16;
    let any = (number(), number());
    let chained = moments.chained();
    let pick = (!chained.is_empty()).then(|| random.pick(&chained));
    for (first, second) in [any].into_iter().chain(pick) {
        tally.probe(&moments.probe(first, second)?);
    }
    Ok(())
}

/// Mostly small tables, since those are quick; some of the largest.
fn size(random: &mut Random) -> Size {
    let (least, most) = match random.below(1000) {
        0..=899 => (2, 10),
        900..=989 => (11, 24),
        990..=995 => (25, 48),
        996..=998 => (49, 64),
        _ => (65, MAX_ROWS),
    };
    Size { least, most }
}
