//! The runs of crate `model_runs`: tables with the answers that the definitions
//! must give.

use pages::{Evaluator, Program};
use readings::{crates, told, with_room};
use std::slice;

/// The lists of runs, and how many each has. The shares of `reports` are
/// written as the prover writes numbers with a point, and the prover computes
/// those runs.
const LISTS: [(&str, usize); 9] = [
    ("Runs.starred", 11),
    ("ShortcutRuns.shortcuts", 10),
    ("RequestRuns.controls", 14),
    ("RequestRuns.counts", 8),
    ("HostRuns.hosts", 19),
    ("ChainRuns.chained", 12),
    ("OrderRuns.stales", 1),
    ("OrderRuns.blanks", 2),
    ("OrderRuns.class_sets", 4),
];

/// So that a value is told as an answer is.
const OWN: &str = "
itself : Answer → Answer
itself answer = answer
";

/// How many runs of a list there are, and those that give something else.
fn differing(pages: &mut Evaluator, list: &str) -> (usize, Vec<String>) {
    let runs = pages.ask(&format!("model_runs/{list}"), &[]).unwrap();
    let mut differing = Vec::new();
    for (place, run) in runs.parts().iter().enumerate() {
        let run = pages.force(run).unwrap();
        let [ask, table, gives] = run.parts() else {
            panic!("{list}: no run at {place}");
        };
        let arguments = [ask.clone(), table.clone()];
        let answer = told(pages, "model_runs/Runs.answer", &arguments).unwrap();
        let wanted = told(pages, "runs/Own.itself", slice::from_ref(gives)).unwrap();
        if answer != wanted {
            differing.push(format!("{list} {place}: {answer}, not {wanted}"));
        }
        pages.forget();
    }
    (runs.parts().len(), differing)
}

#[test]
fn each_gives_its_answer() {
    with_room(|| {
        let mut program = Program::new(crates());
        program.add("runs/Own", OWN).unwrap();
        let mut pages = Evaluator::new(program);
        for (list, count) in LISTS {
            assert_eq!(differing(&mut pages, list), (count, Vec::new()));
        }
    });
}
