//! Derivations: made of steps that hold, and told step by step.

mod common;

use common::{example, generated, with_relations};
use second::State;
use stramashly::{Checker, Derivation, DeriveAnswer};
use words::{at, derivation_lines, derived_lines, moment_words, step_parts, Checked};

/// Whether each step of a chain holds by the second implementation, and the
/// last reaches the second moment.
fn leads(state: &State, from: usize, to: usize, classes: u8, steps: &[u16]) -> bool {
    let mut moment = from;
    let hold = steps.iter().all(|step| {
        let (case, next) = step_parts(*step);
        let holds = state.direct_step(classes, case as u8, moment, next);
        moment = next;
        holds
    });
    hold && moment == to
}

/// Tells every derivation, and gives how many chains there were.
fn tell_all(checked: Checked) -> usize {
    let (state, rows) = (checked.state, &checked.run.rows);
    let mut checker = Checker::new();
    let mut chains = 0;
    let moments = 3 * rows.len();
    for (from, to) in (0..moments).flat_map(|from| (0..moments).map(move |to| (from, to))) {
        if !state.happens_before(from, to) || from == to {
            continue;
        }
        let lines = derived_lines(checked.table, rows, (from, to));
        let answer = checker.derive(checked.table, from as u16, to as u16);
        let DeriveAnswer::Derivation(derivation) = answer else {
            panic!("{from} {to}: {answer}");
        };
        assert_eq!(lines, derivation_lines(rows, from, derivation));
        match derivation {
            Derivation::ProgramOrder => assert_eq!(lines.len(), 1),
            Derivation::Chain { classes, steps } => {
                chains += 1;
                assert!(leads(state, from, to, classes, steps), "{derivation}");
                assert_eq!(lines.len(), steps.len());
                lines.iter().zip(steps).for_each(|(line, step)| {
                    let (case, next) = step_parts(*step);
                    assert!(line.ends_with(&format!("(M6, case {case})")), "{line}");
                    assert!(line.contains(&moment_words(rows, next)), "{line}");
                });
            }
        }
    }
    chains
}

#[test]
fn every_derivation_is_told() {
    let tables = generated(321, 300, 2, 10).into_iter();
    let tables = tables.chain(generated(322, 5, 20, 30));
    let chains: usize = tables.map(|table| with_relations(&table, tell_all)).sum();
    assert!(chains > 1000, "{chains} chains");
}

#[test]
fn table_p_is_told_step_by_step() {
    let table = example("p");
    with_relations(&table, |checked| {
        let rows = &checked.run.rows;
        // From row 1's availability moment to row 2's visibility moment.
        let steps = [1028, 519, 1544];
        let chain = Derivation::Chain {
            classes: 1,
            steps: &steps,
        };
        let mut checker = Checker::new();
        assert_eq!(
            checker.derive(&table, 3, 8),
            DeriveAnswer::Derivation(chain)
        );
        let lines = derived_lines(&table, rows, (3, 8));
        assert_eq!(
            lines,
            [
                "row 1's availability moment comes before row 1, a release for Uniform (M6, case 2)",
                "row 1 synchronizes with row 2, both for Uniform (M6, case 1)",
                "row 2, an acquire for Uniform, comes before row 2's visibility moment (M6, case 3)",
            ]
        );
        let lines = derived_lines(&table, rows, (at(0), at(1)));
        assert_eq!(
            lines,
            ["program order, M1: one agent's rows in their order"]
        );
        let lines = derived_lines(&table, rows, (at(3), at(0)));
        assert!(lines[0].starts_with("no derivation"), "{lines:?}");
    });
}

/// Whoever wrote it: words for steps that no table has are no panic.
#[test]
fn foreign_derivations_have_words_too() {
    let steps = [65535, 2048];
    let chain = Derivation::Chain {
        classes: 255,
        steps: &steps,
    };
    let lines = derivation_lines(&[], 7, chain);
    assert_eq!(lines.len(), 2);
    assert!(lines[1].contains("case 4"), "{lines:?}");
}
