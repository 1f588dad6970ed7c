//! Other definitions looked at beside the pages' own: which of them would have
//! given another value for some arguments. Where none would, the whole answer
//! is the same with it.

use crate::values::same;
use crate::Mutant;
use pages::{Definition, Evaluator, Value};
use std::cell::RefCell;
use std::collections::{HashMap, HashSet};
use std::mem;
use std::rc::Rc;

/// Calls that another definition may take for one value.
const MOST_CALLS: u64 = 200_000;

type Call = (*const Definition, Rc<Vec<Value>>, Value);

/// Calls of one table's questions.
#[derive(Default)]
struct Calls {
    looked_at: Vec<Call>,
    /// How often a definition was called, by whether it said no.
    count: HashMap<(*const Definition, bool), usize>,
}

pub struct Watch {
    /// By definition: the numbers of its mutants.
    mutants: HashMap<*const Definition, Vec<usize>>,
    calls: Rc<RefCell<Calls>>,
}

impl Watch {
    /// Looks at the definitions of these mutants from now on.
    pub fn begin<'a>(
        pages: &mut Evaluator,
        mutants: impl Iterator<Item = (usize, &'a Mutant)>,
    ) -> Watch {
        let mut by_definition: HashMap<_, Vec<usize>> = HashMap::new();
        let mut total = 0;
        for (number, mutant) in mutants {
            let definition: *const Definition = mutant.definition;
            by_definition.entry(definition).or_default().push(number);
            total += 1;
        }
        let first = if total > 120 { 50 } else { 500 };
        let watched: HashSet<*const Definition> = by_definition.keys().copied().collect();
        let calls = Rc::new(RefCell::new(Calls::default()));
        let told = calls.clone();
        pages.watcher = Some(Box::new(move |definition, given, value| {
            if watched.contains(&std::ptr::from_ref(definition)) {
                told.borrow_mut().add(first, definition, given, value);
            }
        }));
        Watch {
            mutants: by_definition,
            calls,
        }
    }

    /// The numbers of those mutants that give another value in a call since
    /// this was asked last.
    pub fn differing(&self, pages: &mut Evaluator, mutants: &[Mutant]) -> HashSet<usize> {
        let calls = mem::take(&mut *self.calls.borrow_mut());
        let watcher = pages.watcher.take();
        let most_calls = mem::replace(&mut pages.most_calls, MOST_CALLS);
        let mut found = HashSet::new();
        for (definition, given, value) in calls.looked_at {
            for number in &self.mutants[&definition] {
                if !found.contains(number) {
                    let told = pages.run(mutants[*number].ready, &given);
                    let is_same = told.and_then(|told| same(pages, &told, &value));
                    if !is_same.unwrap_or(false) {
                        found.insert(*number);
                    }
                }
            }
        }
        pages.most_calls = most_calls;
        pages.watcher = watcher;
        found
    }
}

impl Calls {
    /// The first calls of a table, and some of the later ones.
    fn add(
        &mut self,
        first: usize,
        definition: &Definition,
        given: &Rc<Vec<Value>>,
        value: &Value,
    ) {
        let is_no = matches!(value, Value::Truth(false));
        let definition: *const Definition = definition;
        let count = self.count.entry((definition, is_no)).or_default();
        *count += 1;
        let is_looked_at = *count < first
            || count.is_multiple_of(16) && *count < 1000
            || count.is_multiple_of(100);
        if is_looked_at {
            let call = (definition, given.clone(), value.clone());
            self.looked_at.push(call);
        }
    }
}
