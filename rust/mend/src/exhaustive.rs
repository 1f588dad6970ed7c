//! Test: where the search finds no change of rows that are there, giving all
//! of them all that they may have beside any other change finds none either.

use crate::catalogue::catalogue;
use crate::edit::{edited, merged, Edit};
use crate::facts::{Facts, Goal};
use crate::instruction::instructions;
use crate::judge::of_second;
use crate::run::Run;
use crate::search::search;
use crate::strength::Strength;
use second::{FillAnswer, State, CYCLE_NUMBERS, SOURCE_NUMBERS, WORK_WORDS};
use stramashly::Checker;
use tables::{checkable, Random, Size};

/// Whether the edited table is well formed and its first race, if it has one,
/// comes after the goal.
fn mends(state: &mut State, table: &[u8], edits: &[Edit], goal: Goal) -> bool {
    let table = edited(table, edits);
    match state.fill(&table, WORK_WORDS, SOURCE_NUMBERS) {
        FillAnswer::Refused { .. } => false,
        FillAnswer::Race {
            first,
            second,
            byte,
        } => Goal::new(first, second, byte) > goal,
        _ => true,
    }
}

/// The edits that give every instruction all that it may have.
fn all_strong(run: &Run) -> Vec<Edit> {
    let all = instructions(run);
    let edits = all.iter().flat_map(|instruction| {
        let most = Strength::most(run, instruction);
        instruction.edits(run, most)
    });
    edits.collect()
}

#[test]
fn where_nothing_is_found_there_is_nothing() {
    let mut random = Random::new(351);
    let (mut checker, mut state, mut other) = (Checker::new(), State::new(), State::new());
    let mut compared = 0;
    while compared < 150 {
        let table = checkable(&mut random, Size::of(2, 8)).bytes();
        let answer = state.check(&table, WORK_WORDS, CYCLE_NUMBERS);
        let Some(goal) = Goal::of(&of_second(&answer)) else {
            continue;
        };
        let run = Run::of(&table);
        let checked = Facts {
            table: &table,
            state: &state,
            run: &run,
        };
        let found = search(&table, checked, goal, &mut checker);
        assert!(!found.is_cut);
        if found.cures.iter().any(|cure| !cure.is_new()) {
            continue;
        }
        compared += 1;
        let strong = all_strong(&run);
        assert!(
            !mends(&mut other, &table, &strong, goal),
            "{}",
            tables::hex(&table)
        );
        for change in catalogue(checked, goal) {
            let alone = mends(&mut other, &table, &change.edits, goal);
            let edits = merged(&change.edits, &strong);
            let beside = edits.is_some_and(|edits| mends(&mut other, &table, &edits, goal));
            assert!(!alone && !beside, "{}", tables::hex(&table));
        }
    }
}
