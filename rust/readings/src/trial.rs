//! Mutants put on trial: each is told apart by a table on which the pages with
//! it say something else than the second implementation.

use crate::watch::Watch;
use crate::{Case, Mutant, Readers, Told};
use pages::Found;
use std::collections::hash_map::DefaultHasher;
use std::collections::HashSet;
use std::hash::{Hash, Hasher};

/// Calls that a question of a mutant may take.
const MOST_CALLS: u64 = 4_000_000;

/// Tables that are asked about at a time.
const FEWEST: usize = 2;
const MOST: usize = 50;

/// Readers, and what became of mutants so far.
pub struct Trial {
    readers: Readers,
    mutants: Vec<Mutant>,
    /// The mutants that nothing has told apart, by their numbers, and whether
    /// each has given another value somewhere.
    left: Vec<(usize, bool)>,
}

/// A table and the second implementation's answers.
struct Answered {
    case: Case,
    answers: Vec<Option<u64>>,
}

impl Trial {
    pub fn new(readers: Readers, mutants: Vec<Mutant>) -> Trial {
        let left = (0..mutants.len()).map(|number| (number, false)).collect();
        Trial {
            readers,
            mutants,
            left,
        }
    }

    /// Mutants that nothing has told apart, and whether each has given another
    /// value somewhere.
    pub fn left(&self) -> impl Iterator<Item = (&Mutant, bool)> {
        self.left
            .iter()
            .map(|(number, differs)| (&self.mutants[*number], *differs))
    }

    /// Asks about some tables, more at a time as fewer mutants are left; gives
    /// the numbers of those that told a mutant apart that none before them did.
    pub fn ask(&mut self, cases: Vec<Case>) -> Result<Vec<usize>, String> {
        let mut useful = Vec::new();
        let (mut begin, mut rest) = (0, cases.into_iter().peekable());
        while rest.peek().is_some() {
            let count = (FEWEST + begin / 2).min(MOST);
            let some: Vec<Case> = rest.by_ref().take(count).collect();
            let found = self.ask_together(some)?;
            useful.extend(found.into_iter().map(|place| begin + place));
            begin += count;
        }
        Ok(useful)
    }

    fn ask_together(&mut self, cases: Vec<Case>) -> Result<Vec<usize>, String> {
        let cases: Vec<Answered> = cases.into_iter().map(|case| self.answered(case)).collect();
        let differing = self.differing(&cases).map_err(|stop| stop.to_string())?;
        let mut useful = Vec::new();
        let mut left = Vec::new();
        for (number, differs) in self.left.clone() {
            let places: Vec<usize> = (0..cases.len())
                .filter(|at| differing[*at].contains(&number))
                .collect();
            match self.told_apart_by(number, &cases, &places) {
                Some(place) => useful.push(place),
                None => left.push((number, differs || !places.is_empty())),
            }
        }
        self.left = left;
        useful.sort_unstable();
        useful.dedup();
        Ok(useful)
    }

    fn answered(&mut self, case: Case) -> Answered {
        let answers = case
            .questions
            .iter()
            .map(|question| self.readers.expected(question));
        let answers = answers.map(|told| Some(digest(&told?))).collect();
        Answered { case, answers }
    }

    /// For each table the mutants that give another value somewhere.
    fn differing(&mut self, cases: &[Answered]) -> Found<Vec<HashSet<usize>>> {
        let left = self.left.iter();
        let left = left.map(|(number, _)| (*number, &self.mutants[*number]));
        let watch = Watch::begin(&mut self.readers.pages, left);
        let mut differing = Vec::new();
        for case in cases {
            if let Some(question) = first_difference(&mut self.readers, case)? {
                let question = &case.case.questions[question];
                return Err(format!("the pages differ: {question}").into());
            }
            differing.push(watch.differing(&mut self.readers.pages, &self.mutants));
        }
        self.readers.pages.watcher = None;
        Ok(differing)
    }

    fn told_apart_by(
        &mut self,
        number: usize,
        cases: &[Answered],
        places: &[usize],
    ) -> Option<usize> {
        let Mutant {
            definition, ready, ..
        } = self.mutants[number];
        let usual = self.readers.pages.most_calls;
        self.readers.pages.most_calls = MOST_CALLS;
        let own = definition.ready.replace(Some(ready));
        // Where the pages stop, they differ too.
        let differs = |place: &&usize| {
            let found = first_difference(&mut self.readers, &cases[**place]);
            found.map_or(true, |question| question.is_some())
        };
        let found = places.iter().find(differs).copied();
        definition.ready.set(own);
        self.readers.pages.most_calls = usual;
        found
    }
}

/// The first question that is answered otherwise.
fn first_difference(readers: &mut Readers, answered: &Answered) -> Found<Option<usize>> {
    readers.forget();
    for (place, answer) in answered.answers.iter().enumerate() {
        let Some(answer) = answer else { continue };
        let told = readers.told(&answered.case.questions[place])?;
        if digest(&told) != *answer {
            return Ok(Some(place));
        }
    }
    Ok(None)
}

fn digest(told: &Told) -> u64 {
    let mut hasher = DefaultHasher::new();
    told.answer.hash(&mut hasher);
    for (name, numbers) in &told.left {
        (name, numbers.len()).hash(&mut hasher);
        let mixed = numbers.iter().fold(0u64, |sum, number| {
            sum.wrapping_mul(31).wrapping_add(*number)
        });
        mixed.hash(&mut hasher);
    }
    hasher.finish()
}
