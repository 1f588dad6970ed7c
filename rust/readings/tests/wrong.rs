//! Wrong definitions that the runs of crate `model` let pass: each is told
//! apart.

use pages::{words, Ready};
use readings::{fixed, full, with_room, Mutant, Readers, Trial};

/// The definition, and what it would wrongly be.
const WRONG: [(&str, &str); 3] = [
    // A race is told before an overwritten read.
    (
        "model/Check.verdict",
        "verdict t source = cyclic_or (race_or race (overwritten_or race_free t source) t) t source",
    ),
    // A filled table need not be consistent.
    (
        "model/Fill.filled_or",
        "filled_or next t source = cond (sources_fit t source) (filled (tabulate source t.rows)) next",
    ),
    // A derivation may be for a class set that there is not.
    (
        "model/Reason.chain_holds",
        "chain_holds s m k steps = ltb 0 (length steps) and leb (length steps) STEPS \
         and eqb (stands m steps (length steps)) k and not (any_below (length steps) (broken s m steps))",
    ),
];

/// Those that no table tells apart.
fn left() -> Result<Vec<String>, String> {
    let mut readers = Readers::new();
    let mut mutants = Vec::new();
    for (definition, text) in WRONG {
        let program = &mut readers.pages.program;
        let definition = program
            .definition(definition)
            .map_err(|stop| stop.to_string())?;
        let clause = program.clause(definition, &words(text));
        mutants.push(Mutant {
            definition,
            change: text.to_string(),
            ready: Ready::new(definition, vec![clause.map_err(|stop| stop.to_string())?]),
        });
    }
    let mut trial = Trial::new(readers, mutants);
    trial.ask(fixed())?;
    let left = trial.left().map(|(mutant, _)| full(mutant.definition));
    Ok(left.collect())
}

#[test]
fn known_wrong_definitions_are_told_apart() {
    assert_eq!(with_room(left), Ok(Vec::new()));
}
