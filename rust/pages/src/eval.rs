//! Evaluation by need. What a kept definition gives is kept by its arguments,
//! until the next table.

use crate::native::Given;
use crate::page::Definition;
use crate::parse::Expr;
use crate::program::{Program, Ready};
use std::cell::OnceCell;
use std::collections::HashMap;
use std::error::Error;
use std::rc::Rc;

/// What is found, or why there is nothing.
pub type Found<T = Value> = Result<T, Box<dyn Error>>;

/// An expression of a definition. It stays, so that values can point into it.
pub type Code = &'static Expr;

/// The values of the names that an expression may use.
pub type Env = Rc<Vec<Value>>;

#[derive(Clone)]
pub enum Value {
    /// A number; one with a point by its bits.
    Number(u64),
    Truth(bool),
    List(Rc<Vec<Value>>),
    Function(Rc<Function>),
    /// Put off, with its value once it was asked for.
    Later(Rc<(Code, Env, OnceCell<Value>)>),
}

/// A definition or a λ that waits for more arguments; to a λ all names around
/// it are given. A constructor, or a record that is given its fields, waits
/// forever.
pub struct Function {
    pub code: Code,
    pub given: Vec<Value>,
}

impl Value {
    pub fn list(values: impl IntoIterator<Item = Value>) -> Value {
        Value::List(Rc::new(values.into_iter().collect()))
    }

    fn function(code: Code, given: Vec<Value>) -> Value {
        Value::Function(Rc::new(Function { code, given }))
    }

    /// The values that it is made of.
    pub fn parts(&self) -> &[Value] {
        match self {
            Value::List(list) => list,
            Value::Function(function) => &function.given,
            _ => &[],
        }
    }

    /// What tells it from others in its place, while it is held.
    fn identity(&self) -> u64 {
        match self {
            Value::Number(number) => *number,
            Value::Truth(truth) => u64::from(*truth),
            Value::List(list) => Rc::as_ptr(list) as u64,
            Value::Function(function) => Rc::as_ptr(function) as u64,
            Value::Later(later) => Rc::as_ptr(later) as u64,
        }
    }

    pub fn truth(&self) -> Found<bool> {
        match self {
            Value::Truth(truth) => Ok(*truth),
            _ => Err("no truth".into()),
        }
    }
}

/// Calls of one question, and how deep they lie in each other, at most.
const MOST_CALLS: u64 = 200_000_000;
const DEEPEST: usize = 20_000;

/// Is told of each call of a definition, its arguments and its value.
pub type Watcher = Box<dyn FnMut(&'static Definition, &Env, &Value)>;

/// Evaluates definitions of some pages.
pub struct Evaluator {
    pub program: Program,
    pub watcher: Option<Watcher>,
    pub most_calls: u64,
    calls: u64,
    depth: usize,
    /// By definition and arguments. These are held, so that nothing else comes
    /// to stand at their addresses.
    kept: HashMap<Vec<u64>, (Value, Env)>,
}

impl Evaluator {
    pub fn new(program: Program) -> Evaluator {
        Evaluator {
            program,
            watcher: None,
            most_calls: MOST_CALLS,
            calls: 0,
            depth: 0,
            kept: HashMap::new(),
        }
    }

    /// Forgets what was kept: for the next table, or other definitions.
    pub fn forget(&mut self) {
        self.kept = HashMap::new();
    }

    /// What a definition, `crate/Page.name`, gives for these arguments.
    pub fn ask(&mut self, definition: &str, arguments: &[Value]) -> Found {
        let definition = self.program.definition(definition)?;
        (self.calls, self.depth) = (0, 0);
        self.call(definition, arguments.to_vec())
    }

    /// What these clauses give.
    pub fn run(&mut self, ready: &'static Ready, arguments: &Env) -> Found {
        (self.calls, self.depth) = (0, 0);
        self.by_clause(ready, arguments)
    }

    pub(crate) fn eval(&mut self, code: Code, env: &Env) -> Found {
        match code {
            Expr::Local(_, place) => self.force(&env[*place]),
            Expr::Constant(_, value) => Ok(value.clone()),
            Expr::Native((word, ..)) => Err(format!("{word} without its arguments").into()),
            Expr::Constructor(_) => Ok(Value::function(code, Vec::new())),
            Expr::Function(..) => Ok(Value::function(code, env.to_vec())),
            Expr::Defined(..) => self.application(code, &[], env),
            Expr::Apply(head, arguments) => self.application(head, arguments, env),
            Expr::Record(fields) => {
                let fields = fields.iter().map(|(_, field)| delay(field, env));
                Ok(Value::function(code, fields.collect()))
            }
            // What is borrowed stands for itself.
            Expr::Field(of, "now") => self.eval(of, env),
            Expr::Field(of, name) => {
                let Value::Function(record) = self.eval(of, env)? else {
                    return Err("a field of no record".into());
                };
                let place = match record.code {
                    Expr::Record(fields) => fields.iter().position(|(field, _)| field == name),
                    _ => None,
                };
                self.force(&record.given[place.ok_or("no such field")?])
            }
        }
    }

    fn application(&mut self, head: Code, codes: &'static [Expr], env: &Env) -> Found {
        match head {
            Expr::Native((_, arity, gives)) if codes.len() == *arity => {
                let pages = self;
                gives(&mut Given { pages, codes, env })
            }
            Expr::Defined(_, definition, shared) => {
                let mut given = Vec::with_capacity(shared + codes.len());
                given.extend_from_slice(&env[..*shared]);
                let is_strict = self.program.ready(definition)?.is_strict;
                for code in codes {
                    given.push(match is_strict {
                        true => self.eval(code, env)?,
                        false => delay(code, env),
                    });
                }
                self.call(definition, given)
            }
            _ => {
                let head = self.eval(head, env)?;
                self.apply(head, codes.iter().map(|code| delay(code, env)).collect())
            }
        }
    }

    pub fn force(&mut self, value: &Value) -> Found {
        let Value::Later(later) = value else {
            return Ok(value.clone());
        };
        let (code, env, found) = &**later;
        if let Some(value) = found.get() {
            return Ok(value.clone());
        }
        let value = self.eval(code, env)?;
        Ok(found.get_or_init(|| value).clone())
    }

    pub(crate) fn apply(&mut self, head: Value, more: Vec<Value>) -> Found {
        let waiting = match head {
            _ if more.is_empty() => return Ok(head),
            Value::Function(waiting) => waiting,
            _ => return Err("an application of no function".into()),
        };
        let mut given = [&waiting.given[..], &more].concat();
        match waiting.code {
            Expr::Defined(_, definition, _) => self.call(definition, given),
            Expr::Function(_, arity, body) if given.len() >= *arity => {
                let rest = given.split_off(*arity);
                let value = self.eval(body, &Rc::new(given))?;
                self.apply(value, rest)
            }
            code => Ok(Value::function(code, given)),
        }
    }

    fn call(&mut self, definition: &'static Definition, mut given: Vec<Value>) -> Found {
        let ready = self.program.ready(definition)?;
        let head = std::ptr::from_ref(definition) as u64;
        let rest = given.split_off(ready.arity.min(given.len()));
        let given = Rc::new(given);
        if given.len() < ready.arity {
            let waiting = |_: &mut _| Ok(Value::function(&ready.own, given.to_vec()));
            return self.keep(head, &given, waiting);
        }
        let run = |pages: &mut Evaluator| {
            let value = pages.by_clause(ready, &given)?;
            if let Some(watcher) = &mut pages.watcher {
                watcher(definition, &given, &value);
            }
            Ok(value)
        };
        let value = match ready.is_kept {
            true => self.keep(head, &given, run)?,
            false => run(self)?,
        };
        self.apply(value, rest)
    }

    /// What a definition gives, by the first clause that its arguments meet.
    fn by_clause(&mut self, ready: &'static Ready, given: &Env) -> Found {
        self.calls += 1;
        self.depth += 1;
        if self.calls > self.most_calls || self.depth > DEEPEST {
            return Err("too many calls".into());
        }
        for (patterns, body) in &ready.clauses {
            let mut env = Vec::new();
            let is_name = |pattern: &Expr| matches!(pattern, Expr::Local(..));
            let value = match patterns.iter().all(is_name) {
                true => self.eval(body, given)?,
                false if self.meet(patterns, given, &mut env)? => self.eval(body, &Rc::new(env))?,
                false => continue,
            };
            self.depth -= 1;
            return Ok(value);
        }
        Err("no clause".into())
    }

    fn meet(&mut self, patterns: &[Expr], values: &[Value], env: &mut Vec<Value>) -> Found<bool> {
        for (pattern, value) in patterns.iter().zip(values) {
            let (head, inner) = match pattern {
                Expr::Local(..) => {
                    env.push(value.clone());
                    continue;
                }
                Expr::Apply(head, inner) => (&**head, &inner[..]),
                constant => (constant, &[][..]),
            };
            match parts_by(head, &self.force(value)?) {
                Some(parts) if self.meet(inner, &parts, env)? => (),
                _ => return Ok(false),
            }
        }
        Ok(true)
    }

    /// What is made for a key and these values, unless it is kept already.
    pub(crate) fn keep(
        &mut self,
        head: u64,
        values: &Env,
        make: impl FnOnce(&mut Evaluator) -> Found,
    ) -> Found {
        let mut key = Vec::with_capacity(values.len() + 1);
        key.push(head);
        for value in values.iter() {
            key.push(self.force(value)?.identity());
        }
        if let Some((value, _)) = self.kept.get(&key) {
            return Ok(value.clone());
        }
        let value = make(self)?;
        self.kept.insert(key, (value.clone(), values.clone()));
        Ok(value)
    }
}

/// What a constructor was applied to, if a value is made with it.
fn parts_by(constructor: &Expr, value: &Value) -> Option<Vec<Value>> {
    match (constructor, value) {
        (Expr::Constant(_, Value::List(_)), list) => list.parts().is_empty().then(Vec::new),
        (Expr::Constant(_, a), b) => (a.identity() == b.identity()).then(Vec::new),
        (Expr::Constructor(a), Value::Function(b)) => {
            matches!(b.code, Expr::Constructor(b) if a == b).then(|| b.given.clone())
        }
        // `suc` and `◌∷◌`
        (_, Value::Number(number)) => Some(vec![Value::Number(number.checked_sub(1)?)]),
        (_, value) => {
            let (first, rest) = value.parts().split_first()?;
            Some(vec![first.clone(), Value::list(rest.to_vec())])
        }
    }
}

/// A name's value is there, or put off already.
fn delay(code: Code, env: &Env) -> Value {
    match code {
        Expr::Local(_, place) => env[*place].clone(),
        Expr::Constant(_, value) => value.clone(),
        _ => Value::Later(Rc::new((code, env.clone(), OnceCell::new()))),
    }
}
