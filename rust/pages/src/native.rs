//! The words that are known without a page: those of the kit's library, and,
//! for speed, some of crate `finite`, whose own definitions a test compares.

use crate::eval::{Env, Evaluator, Found, Value};
use crate::page::Word;
use crate::parse::Expr;
use std::rc::Rc;
use Value::{List, Number, Truth};

/// A word, how many arguments it waits for, and what it gives for them.
pub type Native = (Word, usize, fn(&mut Given) -> Found);

/// What a word stands for that no page defines.
pub fn library(word: Word) -> Option<Expr> {
    let mut natives = OF_LIBRARY.iter().chain(OF_FINITE);
    let value = match word {
        "zero" => Number(0),
        "true" => Truth(true),
        "false" => Truth(false),
        "[]" => Value::list([]),
        "nan" => Number(f64::NAN.to_bits()),
        // Nothing but `round` reads it.
        "binary64" => Number(64),
        _ => match word.parse() {
            Ok(number) => Number(number),
            Err(_) => return natives.find(|native| native.0 == word).map(Expr::Native),
        },
    };
    Some(Expr::Constant(word, value))
}

const OF_LIBRARY: &[Native] = &[
    ("suc", 1, |a| exact(a.number(0)?.checked_add(1))),
    ("◌+◌", 2, |a| a.two(u64::checked_add)),
    ("◌*◌", 2, |a| a.two(u64::checked_mul)),
    ("◌-◌", 2, |a| a.two(|x, y| Some(x.saturating_sub(y)))),
    ("◌/◌", 2, |a| a.two(|x, y| x.checked_div(y).or(Some(0)))),
    ("◌%◌", 2, |a| a.two(|x, y| x.checked_rem(y).or(Some(x)))),
    ("bit_and", 2, |a| a.two(|x, y| Some(x & y))),
    ("ltb", 2, |a| Ok(Truth(a.number(0)? < a.number(1)?))),
    ("leb", 2, |a| Ok(Truth(a.number(0)? <= a.number(1)?))),
    ("eqb", 2, |a| Ok(Truth(a.number(0)? == a.number(1)?))),
    ("beq", 2, |a| Ok(Truth(a.truth(0)? == a.truth(1)?))),
    ("not", 1, |a| Ok(Truth(!a.truth(0)?))),
    ("cond", 3, |a| match a.truth(0)? {
        true => a.value(1),
        false => a.value(2),
    }),
    ("◌∷◌", 2, |a| {
        list([a.value(0)?].iter().chain(&*a.list(1)?))
    }),
    ("◌++◌", 2, |a| {
        list(a.list(0)?.iter().chain(&*a.list(1)?))
    }),
    ("length", 1, |a| Ok(Number(a.list(0)?.len() as u64))),
    ("get_or", 3, |a| match a.list(0)?.get(a.size(1)?) {
        Some(value) => a.pages.force(value),
        None => a.value(2),
    }),
    ("set", 3, |a| {
        let mut values = a.list(0)?.to_vec();
        if let Some(value) = values.get_mut(a.size(1)?) {
            *value = a.value(2)?;
        }
        Ok(Value::list(values))
    }),
    ("take", 2, |a| list(a.list(1)?.iter().take(a.size(0)?))),
    ("drop", 2, |a| list(a.list(1)?.iter().skip(a.size(0)?))),
    ("replicate", 2, |a| {
        list(vec![a.value(1)?; a.size(0)?].iter())
    }),
    // The nearest number with a point to a fraction that isn't negative.
    ("round", 4, |a| {
        let quotient = a.number(2)? as f64 / a.number(3)? as f64;
        Ok(Number(quotient.to_bits()))
    }),
];

/// Those of crate `finite`.
pub const OF_FINITE: &[Native] = &[
    ("◌and◌", 2, |a| Ok(Truth(a.truth(0)? && a.truth(1)?))),
    ("◌or◌", 2, |a| Ok(Truth(a.truth(0)? || a.truth(1)?))),
    ("any_below", 2, |a| Ok(Truth(a.find(true)? < a.number(0)?))),
    ("all_below", 2, |a| {
        Ok(Truth(a.find(false)? == a.number(0)?))
    }),
    ("least", 2, |a| Ok(Number(a.find(true)?))),
    ("tabulate", 2, |a| {
        let (function, count) = (a.value(0)?, a.number(1)?);
        let value = |at| a.pages.apply(function.clone(), vec![Number(at)]);
        list((0..count).map(value).collect::<Found<Vec<Value>>>()?.iter())
    }),
    ("through", 4, through),
];

/// By search instead of Warshall's recursion: for each number below the bound,
/// and one past it, whether some steps by way of numbers below it lead there.
fn through(a: &mut Given) -> Found {
    let (relation, bound) = (a.value(0)?, a.number(1)?);
    let (from, to) = (a.number(2)?, a.number(3)?);
    let past = to.max(bound);
    let held = vec![relation.clone(), Number(bound), Number(from), Number(past)];
    let reached = a.pages.keep(0, &Rc::new(held), |pages| {
        let mut is_reached = vec![false; bound as usize + 1];
        let mut open = vec![from];
        while let Some(number) = open.pop() {
            for next in (0..bound).chain([past]) {
                let is_reached = &mut is_reached[next.min(bound) as usize];
                let given = vec![Number(number), Number(next)];
                if !*is_reached && pages.apply(relation.clone(), given)?.truth()? {
                    *is_reached = true;
                    open.extend((next < bound).then_some(next));
                }
            }
        }
        Ok(Value::list(is_reached.into_iter().map(Truth)))
    })?;
    Ok(reached.parts()[to.min(bound) as usize].clone())
}

fn exact(found: Option<u64>) -> Found {
    Ok(Number(found.ok_or("too large a number")?))
}

fn list<'a>(values: impl Iterator<Item = &'a Value>) -> Found {
    Ok(Value::list(values.cloned()))
}

/// What a native is given; arguments that it doesn't ask for aren't evaluated.
pub struct Given<'a> {
    pub pages: &'a mut Evaluator,
    pub codes: &'static [Expr],
    pub env: &'a Env,
}

impl Given<'_> {
    fn value(&mut self, place: usize) -> Found {
        self.pages.eval(&self.codes[place], self.env)
    }

    fn number(&mut self, place: usize) -> Found<u64> {
        match self.value(place)? {
            Number(number) => Ok(number),
            _ => Err("no number".into()),
        }
    }

    fn size(&mut self, place: usize) -> Found<usize> {
        Ok(self.number(place)? as usize)
    }

    /// What is made of the first two numbers.
    fn two(&mut self, make: fn(u64, u64) -> Option<u64>) -> Found {
        exact(make(self.number(0)?, self.number(1)?))
    }

    fn truth(&mut self, place: usize) -> Found<bool> {
        self.value(place)?.truth()
    }

    fn list(&mut self, place: usize) -> Found<Rc<Vec<Value>>> {
        match self.value(place)? {
            List(list) => Ok(list),
            _ => Err("no list".into()),
        }
    }

    /// The least number for which the test gives this, or the bound.
    fn find(&mut self, wanted: bool) -> Found<u64> {
        let (bound, test) = (self.number(0)?, self.value(1)?);
        for number in 0..bound {
            let given = self.pages.apply(test.clone(), vec![Number(number)])?;
            if given.truth()? == wanted {
                return Ok(number);
            }
        }
        Ok(bound)
    }
}
