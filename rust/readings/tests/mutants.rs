//! A sample of the mutants: nearly each is told apart. The program `mutants`
//! tries them all.

use readings::{equal, fixed, mutants, with_room, Readers, Trial};

/// One in so many.
const EVERY: usize = 45;

fn tried() -> Result<(usize, Vec<String>), String> {
    let mut readers = Readers::new();
    let asked = readers.definitions(&fixed())?;
    let listed = equal();
    let all = mutants(&readers.pages.program, &asked).map_err(|stop| stop.to_string())?;
    let other = all
        .into_iter()
        .filter(|mutant| !listed.contains(&mutant.line()[..]));
    let sample: Vec<_> = other.step_by(EVERY).collect();
    let count = sample.len();
    let mut trial = Trial::new(readers, sample);
    trial.ask(fixed())?;
    Ok((
        count,
        trial.left().map(|(mutant, _)| mutant.line()).collect(),
    ))
}

#[test]
fn nearly_each_is_told_apart() {
    let (count, left) = with_room(tried).unwrap();
    assert!(count >= 50, "{count} mutants");
    assert!(
        20 * left.len() <= count,
        "{} of {count}: {left:#?}",
        left.len()
    );
}
