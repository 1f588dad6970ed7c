//! Clauses of a definition read into expressions, where each name has what it
//! stands for.

use crate::eval::{Found, Value};
use crate::native::Native;
use crate::page::{Definition, Word};
use crate::program::Program;

/// An expression. An operator is a name with a place at each side, as `◌+◌`.
#[derive(Clone)]
pub enum Expr {
    /// A place of the environment.
    Local(Word, usize),
    /// A number or another value that has a name.
    Constant(Word, Value),
    Native(&'static Native),
    Constructor(Word),
    /// A definition, with how many of the first places of the environment are
    /// given to it: parameters of modules that it stands in too.
    Defined(Word, &'static Definition, usize),
    Apply(Box<Expr>, Vec<Expr>),
    Field(Box<Expr>, Word),
    Record(Vec<(Word, Expr)>),
    /// Its names, and how many there are with those around it. `let` is one that
    /// is applied.
    Function(Vec<Word>, usize, Box<Expr>),
}

/// The patterns and the body.
pub type Clause = (Vec<Expr>, Expr);

/// Words that end an expression; the first is that of the end.
const ENDS: [Word; 6] = ["", ")", "}", ";", "=", "in"];

pub struct Parser<'a> {
    pub program: &'a Program,
    pub definition: &'a Definition,
    pub words: &'a [Word],
    /// Names by their places in the environment.
    pub locals: Vec<Word>,
    pub is_pattern: bool,
}

impl Parser<'_> {
    /// `name pattern .. = body` or `pattern operator pattern = body`; what the
    /// modules give comes before the patterns.
    pub fn clause(&mut self) -> Found<Clause> {
        let given = self.locals.iter().enumerate();
        let mut patterns: Vec<Expr> = given.map(|(at, name)| Expr::Local(name, at)).collect();
        if let Expr::Apply(_, own) = self.expression(0)? {
            patterns.extend(own);
        }
        self.expect("=")?;
        self.is_pattern = false;
        let body = self.expression(0)?;
        self.expect("")?;
        Ok((patterns, body))
    }

    fn peek(&self) -> Word {
        self.words.first().copied().unwrap_or_default()
    }

    fn next(&mut self) -> Word {
        let word = self.peek();
        self.words = self.words.get(1..).unwrap_or_default();
        word
    }

    fn expect(&mut self, word: Word) -> Found<()> {
        match self.next() {
            next if next == word => Ok(()),
            other => Err(format!("{other:?} instead of {word:?}").into()),
        }
    }

    /// A function of these names, which have the next places in its body.
    fn function(&mut self, names: &[Word]) -> Found<Expr> {
        self.locals.extend(names);
        let places = self.locals.len();
        let body = Box::new(self.expression(0)?);
        self.locals.truncate(places - names.len());
        Ok(Expr::Function(names.to_vec(), places, body))
    }

    /// Operators that bind at least so tightly.
    fn expression(&mut self, least: u32) -> Found<Expr> {
        let mut left = match self.peek() {
            "λ" => {
                let end = self.words.iter().position(|word| *word == ".");
                let (names, rest) = self.words.split_at(end.ok_or("λ without a dot")?);
                self.words = &rest[1..];
                return self.function(&names[1..]);
            }
            "let" => {
                self.next();
                let name = self.next();
                self.expect("=")?;
                let value = self.expression(0)?;
                self.expect("in")?;
                let function = self.function(&[name])?;
                return Ok(Expr::Apply(Box::new(function), vec![value]));
            }
            _ => self.application()?,
        };
        while let Some(&(name, binds, right)) = self.program.operators.get(self.peek()) {
            if binds < least {
                break;
            }
            self.next();
            let after = self.expression(if right { binds } else { binds + 1 })?;
            left = Expr::Apply(Box::new(self.name(name)?), vec![left, after]);
        }
        Ok(left)
    }

    /// A head and what it is applied to.
    fn application(&mut self) -> Found<Expr> {
        let mut head = self.atom()?;
        loop {
            let word = self.peek();
            if ENDS.contains(&word) || self.program.operators.contains_key(word) {
                return Ok(head);
            }
            head = match head {
                Expr::Apply(head, mut arguments) => {
                    arguments.push(self.atom()?);
                    Expr::Apply(head, arguments)
                }
                head => Expr::Apply(Box::new(head), vec![self.atom()?]),
            };
        }
    }

    fn atom(&mut self) -> Found<Expr> {
        match self.next() {
            "(" => {
                let inside = self.expression(0)?;
                self.expect(")")?;
                let fields = self.peek().strip_prefix('.').map_or("", |_| self.next());
                let field = |of, name| Expr::Field(Box::new(of), name);
                Ok(fields.split('.').skip(1).fold(inside, field))
            }
            "record" => {
                let mut fields = Vec::new();
                self.expect("{")?;
                while self.peek() != "}" {
                    let name = self.next();
                    self.expect("=")?;
                    fields.push((name, self.expression(0)?));
                    self.words = self.words.strip_prefix(&[";"]).unwrap_or(self.words);
                }
                self.expect("}")?;
                Ok(Expr::Record(fields))
            }
            word if ENDS.contains(&word) => Err(format!("{word:?} for an expression").into()),
            word => self.name(word),
        }
    }

    /// At the left a name is new, unless it is a constructor's or the definition's.
    fn name(&mut self, word: Word) -> Found<Expr> {
        let is_new = self.is_pattern && word != self.definition.name;
        let known = self.locals.iter().rposition(|local| *local == word);
        match (known, self.program.meaning(word, self.definition)) {
            (Some(place), _) if !self.is_pattern => Ok(Expr::Local(word, place)),
            (_, Some(meaning)) if !is_new || is_constructor(&meaning) => Ok(meaning),
            _ if is_new => {
                self.locals.push(word);
                Ok(Expr::Local(word, self.locals.len() - 1))
            }
            _ => match word.rsplit_once('.') {
                Some((of, name)) => Ok(Expr::Field(Box::new(self.name(of)?), name)),
                None => Err(format!("{word} is not known").into()),
            },
        }
    }
}

fn is_constructor(meaning: &Expr) -> bool {
    match meaning {
        Expr::Constant(..) | Expr::Constructor(_) => true,
        Expr::Native((word, ..)) => ["suc", "◌∷◌"].contains(word),
        _ => false,
    }
}
