//! Questions, and both who answer them.

use crate::contract::contracts;
use crate::values::{full, numbers, told};
use crate::{crates, expected, Case};
use pages::{Definition, Evaluator, Found, Program, Value};
use second::State;
use std::cell::RefCell;
use std::collections::{BTreeMap, HashMap};
use std::rc::Rc;
use std::{fmt, fs};
use tables::hex;

/// The page of the functions that C links: their contracts.
pub const LINKED: &str = "stramashly/contracts";

/// Definitions that no linked function leads to, or whose answer it packs so
/// that a part is lost.
pub const REPORT: &str = "model/Report.report";
pub const ROW_PART: &str = "door_pieces/Pieces.row_part";
pub const COUNT_BOTH: &str = "door_pieces/Pieces.count_both";
pub const LOWEST_SHARED: &str = "model/Row.lowest_shared";
pub const SHARES: &str = "model/Scope.shares";
pub const READ_ENTRIES: &str = "door_write/Encode.entries_of";
pub const READ_DEPENDENCIES: &str = "door_write/Encode.dependencies_of";

#[derive(Clone, Debug, PartialEq, Eq, Hash)]
pub enum Argument {
    Number(u64),
    Truth(bool),
    Bytes(Vec<u8>),
    Halves(Vec<u16>),
    Words(Vec<u64>),
    Places(Vec<[u16; 4]>),
    /// A lent 64-bit float, by its bits.
    Float(u64),
}

/// A function that C links, or a definition by its full name, and what it is
/// called with.
#[derive(Clone, Debug, PartialEq, Eq)]
pub struct Question {
    pub function: &'static str,
    pub arguments: Vec<Argument>,
}

/// An answer, and what each lent buffer holds afterwards.
#[derive(Clone, Debug, Default, PartialEq, Eq)]
pub struct Told {
    pub answer: String,
    pub left: BTreeMap<String, Vec<u64>>,
}

/// The pages, and the second implementation.
pub struct Readers {
    pub pages: Evaluator,
    second: State,
    /// The definitions of the contracts.
    parts: Vec<String>,
    values: HashMap<Argument, Value>,
}

impl Readers {
    pub fn new() -> Readers {
        let code = crates().join("stramashly_c/src/lib.rt");
        let (page, parts) = contracts(&fs::read_to_string(code).expect("the library's code"));
        let mut program = Program::new(crates());
        program.add(LINKED, &page).expect("the pages");
        Readers {
            pages: Evaluator::new(program),
            second: State::new(),
            parts,
            values: HashMap::new(),
        }
    }

    /// Forgets a table.
    pub fn forget(&mut self) {
        self.pages.forget();
        self.values.clear();
    }

    /// What the second implementation says; nothing where it gives up.
    pub fn expected(&mut self, question: &Question) -> Option<Told> {
        expected::told(&mut self.second, question)
    }

    /// What the pages say.
    pub fn told(&mut self, question: &Question) -> Found<Told> {
        let function = question.function;
        let given: Vec<Value> = question.arguments.iter().map(|a| self.value(a)).collect();
        if function.contains('/') {
            let answer = told(&mut self.pages, function, &given)?;
            return Ok(Told {
                answer,
                ..Told::default()
            });
        }
        let mut found = Told::default();
        for part in self.parts_of(function) {
            let definition = format!("{LINKED}.{function}:{part}");
            match part.as_str() {
                "result" => found.answer = told(&mut self.pages, &definition, &given)?,
                "share" => {
                    let Value::Number(share) = self.pages.ask(&definition, &given)? else {
                        return Err("no number".into());
                    };
                    found.left.insert(part, vec![share]);
                }
                _ => {
                    let numbers = self.numbers(&definition, &given)?;
                    found.left.insert(part, numbers);
                }
            }
        }
        Ok(found)
    }

    fn parts_of(&self, function: &str) -> Vec<String> {
        let part = |name: &String| {
            let part = name.strip_prefix(function)?.strip_prefix(':')?;
            Some(part.to_string())
        };
        self.parts.iter().filter_map(part).collect()
    }

    /// The numbers of a list.
    fn numbers(&mut self, definition: &str, given: &[Value]) -> Found<Vec<u64>> {
        let list = self.pages.ask(definition, given)?;
        let number = |value: &Value| match value {
            Value::Number(number) => Ok(*number),
            later => match self.pages.force(later)? {
                Value::Number(number) => Ok(number),
                _ => Err("no number".into()),
            },
        };
        list.parts().iter().map(number).collect()
    }

    /// Equal arguments are one value, so that what is known of one is known of the other.
    fn value(&mut self, argument: &Argument) -> Value {
        if let Some(value) = self.values.get(argument) {
            return value.clone();
        }
        let value = match argument {
            Argument::Number(number) => Value::Number(*number),
            Argument::Truth(truth) => Value::Truth(*truth),
            Argument::Bytes(bytes) => numbers(bytes),
            Argument::Halves(halves) => numbers(halves),
            Argument::Words(words) => numbers(words),
            Argument::Float(bits) => Value::Number(*bits),
            Argument::Places(places) => Value::list(places.iter().map(|place| numbers(place))),
        };
        self.values.insert(argument.clone(), value.clone());
        value
    }

    /// The definitions that the questions of these tables lead to.
    pub fn definitions(&mut self, cases: &[Case]) -> Result<Vec<&'static Definition>, String> {
        let called = Rc::new(RefCell::new(BTreeMap::new()));
        let told = called.clone();
        self.pages.watcher = Some(Box::new(move |definition, _, _| {
            told.borrow_mut()
                .entry(full(definition))
                .or_insert(definition);
        }));
        for case in cases {
            self.forget();
            for question in &case.questions {
                self.compare(question)?;
            }
        }
        self.pages.watcher = None;
        let called = called.borrow().values().copied().collect();
        Ok(called)
    }

    /// Asks both; says where they differ.
    pub fn compare(&mut self, question: &Question) -> Result<Option<Told>, String> {
        let Some(expected) = self.expected(question) else {
            return Ok(None);
        };
        match self.told(question) {
            Ok(told) if told == expected => Ok(Some(told)),
            Ok(told) => Err(format!("{question}\n{}", difference(&told, &expected))),
            Err(stop) => Err(format!(
                "{question}\n{} instead of {}",
                stop, expected.answer
            )),
        }
    }
}

impl Default for Readers {
    fn default() -> Readers {
        Readers::new()
    }
}

fn difference(told: &Told, expected: &Told) -> String {
    if told.answer != expected.answer {
        return format!("{} instead of {}", told.answer, expected.answer);
    }
    for (name, numbers) in &expected.left {
        let ours = told.left.get(name).map_or(&[][..], |numbers| numbers);
        let place = (0..numbers.len().max(ours.len())).find(|at| ours.get(*at) != numbers.get(*at));
        if let Some(place) = place {
            return format!("{}, but {name} differs at {place}", told.answer);
        }
    }
    "other buffers".to_string()
}

impl fmt::Display for Question {
    /// Long buffers are told by their lengths.
    fn fmt(&self, formatter: &mut fmt::Formatter) -> fmt::Result {
        write!(formatter, "{}", self.function)?;
        for argument in &self.arguments {
            match argument {
                Argument::Bytes(bytes) => write!(formatter, " {}", hex(bytes))?,
                Argument::Words(words) => write!(formatter, " {} words", words.len())?,
                Argument::Halves(halves) if halves.len() > 100 => {
                    write!(formatter, " {} numbers", halves.len())?;
                }
                other => write!(formatter, " {other:?}")?,
            }
        }
        Ok(())
    }
}
