//! Which derivation is found, by the words of its comment: the word where
//! program order holds; else, for the lowest class set that has a chain, one of
//! the fewest steps, by the least next moment each time and the lowest case.

use second::State;

const CLASS_SETS: u8 = 15;
const CASES: u8 = 4;
const STEP_CASE: u16 = 512;

pub enum Choice {
    Word,
    Chain(u8, Vec<u16>),
    NotBefore,
}

/// Of two different moments of the last admitted table.
pub fn chosen(state: &State, first: usize, second: usize) -> Choice {
    if state.in_program_order(first, second) {
        return Choice::Word;
    }
    let found = (1..=CLASS_SETS).find_map(|classes| {
        let steps = fewest(state, classes, first, second)?;
        Some(Choice::Chain(classes, steps))
    });
    found.unwrap_or(Choice::NotBefore)
}

fn lowest_case(state: &State, classes: u8, from: usize, to: usize) -> Option<u16> {
    let is_step = |case: &u8| state.direct_step(classes, *case, from, to);
    (1..=CASES).find(is_step).map(u16::from)
}

fn fewest(state: &State, classes: u8, first: usize, second: usize) -> Option<Vec<u16>> {
    let moments = 3 * state.row_count();
    // How many steps there are from each moment to the second, where known.
    let mut distance = vec![None; moments];
    distance[second] = Some(0);
    let mut layer = vec![second];
    while distance[first].is_none() && !layer.is_empty() {
        let is_new = |from: &usize| {
            let is_before = |to: &usize| lowest_case(state, classes, *from, *to).is_some();
            distance[*from].is_none() && layer.iter().any(is_before)
        };
        let next: Vec<usize> = (0..moments).filter(is_new).collect();
        let steps = distance[layer[0]].map(|steps: usize| steps + 1);
        next.iter().for_each(|from| distance[*from] = steps);
        layer = next;
    }
    let mut left = distance[first]?;
    let (mut at, mut steps) = (first, Vec::new());
    while left > 0 {
        left -= 1;
        let is_nearer = |to: &usize| distance[*to] == Some(left);
        let step = |to| Some((to, lowest_case(state, classes, at, to)?));
        let (to, case) = (0..moments).filter(is_nearer).find_map(step)?;
        steps.push(STEP_CASE * case + to as u16);
        at = to;
    }
    Some(steps)
}
