//! Derivations as anybody may write them, good and bad.

use second::Derivation;
use stramashly::{CHAIN_NUMBERS, PROGRAM_ORDER, STEP_CASE};
use tables::Random;

/// A class set, or 16 for the word program order, and steps, as they go over
/// the C boundary.
#[derive(Clone, Debug, PartialEq, Eq)]
pub struct Claim {
    pub classes: u8,
    pub steps: Vec<u16>,
}

impl Claim {
    pub fn word() -> Claim {
        Claim {
            classes: PROGRAM_ORDER,
            steps: Vec::new(),
        }
    }

    pub fn chain(classes: u8, steps: &[u16]) -> Claim {
        Claim {
            classes,
            steps: steps.to_vec(),
        }
    }

    /// As the second implementation takes it. With steps beside it the word
    /// is no word: then 16 is a class set that there is not.
    pub(crate) fn derivation(&self) -> Derivation<'_> {
        if *self == Claim::word() {
            return Derivation::ProgramOrder;
        }
        Derivation::Chain {
            classes: self.classes,
            steps: &self.steps,
        }
    }

    /// Any steps, now and then such as could be those of so many moments.
    pub fn random(random: &mut Random, moments: usize) -> Claim {
        let count = random.pick(&[0, 1, 1, 2, 3, 4, CHAIN_NUMBERS, CHAIN_NUMBERS + 1, 600]);
        Claim {
            classes: any_classes(random),
            steps: (0..count).map(|_| any_step(random, moments)).collect(),
        }
    }

    /// The same with one thing changed, for better or worse.
    pub fn mutated(&self, random: &mut Random, moments: usize) -> Claim {
        let mut claim = self.clone();
        let steps = &mut claim.steps;
        let place = random.below(steps.len().max(1));
        match random.below(9) {
            0 => claim.classes = any_classes(random),
            1 => claim.classes ^= 1 << random.below(8),
            2 => steps.insert(place, any_step(random, moments)),
            3 => lengthen(random, steps),
            4 => claim.classes = PROGRAM_ORDER,
            _ if steps.is_empty() => steps.push(any_step(random, moments)),
            5 => steps[place] = steps[place] % STEP_CASE + STEP_CASE * any_case(random),
            6 => {
                let case = steps[place] / STEP_CASE;
                steps[place] = case * STEP_CASE + any_moment(random, moments);
            }
            7 => {
                steps.remove(place);
            }
            _ => steps.insert(place, steps[place]),
        }
        claim
    }
}

fn any_classes(random: &mut Random) -> u8 {
    let any = random.word() as u8;
    let set = random.between(0, 17) as u8;
    random.pick(&[any, set, set, set])
}

fn any_case(random: &mut Random) -> u16 {
    random.pick(&[0, 1, 1, 2, 2, 3, 3, 4, 4, 5, 127])
}

/// Mostly a number below so many, else any that a step has room for.
fn any_moment(random: &mut Random, moments: usize) -> u16 {
    let bound = if random.percent(90) { moments + 1 } else { 512 };
    random.below(bound) as u16
}

fn any_step(random: &mut Random, moments: usize) -> u16 {
    let any = random.word() as u16;
    let likely = any_case(random) * STEP_CASE + any_moment(random, moments);
    random.pick(&[any, likely, likely, likely])
}

/// Repeats the steps up to the most that there may be, or past it.
fn lengthen(random: &mut Random, steps: &mut Vec<u16>) {
    let length = CHAIN_NUMBERS + random.below(3);
    let once = steps.clone();
    steps.extend(once.iter().cycle().take(length.saturating_sub(once.len())));
}
