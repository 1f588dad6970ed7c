//! Pages read from their files, and what their names stand for.

use crate::eval::{Found, Value};
use crate::native::library;
use crate::page::{Definition, Operators, Page, Word};
use crate::parse::{Clause, Expr, Parser};
use std::collections::HashMap;
use std::fs;
use std::path::PathBuf;

/// The library's own operators; a page says those that it defines.
const LIBRARY: Word = "
infixl 65 ◌+◌ ◌-◌ ◌++◌
infixr 67 ◌∷◌
infixl 70 ◌*◌ ◌/◌ ◌%◌
";

/// Words for a search, or by which something is made.
const COSTLY: Word = "any_below all_below least tabulate through record ++ take drop";

/// A definition that is ready to be called.
pub struct Ready {
    pub arity: usize,
    pub clauses: Vec<Clause>,
    /// Its arguments are evaluated first. One that asks which case there is may
    /// not need them all.
    pub is_strict: bool,
    /// What it gives is kept by its arguments: it is long, or has a costly word.
    pub is_kept: bool,
    /// Its name, as an expression.
    pub own: Expr,
}

/// The pages of a folder of crates.
pub struct Program {
    crates: PathBuf,
    pages: HashMap<String, &'static Page>,
    pub(crate) operators: Operators,
}

impl Program {
    pub fn new(crates: PathBuf) -> Program {
        Program {
            crates,
            pages: HashMap::new(),
            operators: Page::read("", LIBRARY).operators,
        }
    }

    /// A page by its text, with all pages that it uses.
    pub fn add(&mut self, name: &str, text: &str) -> Found<()> {
        let page: &'static Page = Box::leak(Box::new(Page::read(name, text)));
        self.operators.extend(&page.operators);
        self.pages.insert(name.to_string(), page);
        let mut used = page.uses.values().filter_map(|path| page_of(path));
        used.try_for_each(|used| self.load(&used))
    }

    fn load(&mut self, name: &str) -> Found<()> {
        if self.pages.contains_key(name) {
            return Ok(());
        }
        let (folder, file) = name.split_once('/').unwrap_or((name, ""));
        let file = format!("{folder}/specs/{}.antt", file.replace('.', "/"));
        self.add(name, &fs::read_to_string(self.crates.join(file))?)
    }

    /// The definition `crate/Page.name`.
    pub fn definition(&mut self, full: &str) -> Found<&'static Definition> {
        let (page, name) = full.split_once('.').unwrap_or((full, ""));
        self.load(page)?;
        Ok(self.pages[page].definitions.get(name).ok_or(full)?)
    }

    /// A clause of a definition, or one that might stand there.
    pub fn clause(&self, definition: &Definition, words: &[Word]) -> Found<Clause> {
        let mut parser = Parser {
            program: self,
            definition,
            words,
            locals: definition.parameters.clone(),
            is_pattern: true,
        };
        parser.clause()
    }

    pub fn ready(&self, definition: &'static Definition) -> Found<&'static Ready> {
        if let Some(ready) = definition.ready.get() {
            return Ok(ready);
        }
        let clauses = definition.clauses.iter();
        let clauses = clauses.map(|words| self.clause(definition, words));
        let ready = Ready::new(definition, clauses.collect::<Found<_>>()?);
        definition.ready.set(Some(ready));
        Ok(ready)
    }

    /// What a name stands for in a definition.
    pub(crate) fn meaning(&self, word: Word, definition: &Definition) -> Option<Expr> {
        let (used, name) = match word.rfind('.') {
            Some(dot) => (&word[..=dot], &word[dot + 1..]),
            None => (word, word),
        };
        let page = match self.pages[&definition.page].uses.get(used) {
            Some(path) if path.ends_with("TheVariants") => return Some(Expr::Constructor(name)),
            Some(path) => page_of(path).unwrap_or_default(),
            // A field of a value; before a constructor there may be its type.
            None if used != word && !word.starts_with(char::is_uppercase) => return None,
            None => definition.page.clone(),
        };
        let there = self.pages.get(&page);
        let is_native = page.starts_with("finite/") && library(name).is_some();
        match there.and_then(|there| there.definitions.get(name)) {
            Some(found) if !is_native => {
                // Of one module both have the same word of its text.
                let both = found.parameters.iter().zip(&definition.parameters);
                let shared = both.take_while(|(one, two)| one.as_ptr() == two.as_ptr());
                Some(Expr::Defined(word, found, shared.count()))
            }
            None if there.is_some_and(|there| there.constructors.contains(name)) => {
                Some(Expr::Constructor(name))
            }
            _ => library(name),
        }
    }
}

impl Ready {
    /// A definition with clauses, its own or others.
    pub fn new(definition: &'static Definition, clauses: Vec<Clause>) -> &'static Ready {
        let arity = clauses.first().map_or(0, |(patterns, _)| patterns.len());
        let asks = |pattern: &Expr| match pattern {
            Expr::Apply(head, _) => matches!(**head, Expr::Constructor(_)),
            Expr::Constant(_, value) => matches!(value, Value::Truth(_)),
            pattern => matches!(pattern, Expr::Constructor(_)),
        };
        let mut patterns = clauses.iter().flat_map(|(patterns, _)| patterns);
        let is_strict = !patterns.any(asks);
        let words = definition.clauses.concat();
        let mut costly = COSTLY.split(' ');
        let is_worth = words.len() > 16 || costly.any(|word| words.contains(&word));
        Box::leak(Box::new(Ready {
            arity,
            clauses,
            is_strict,
            is_kept: is_strict && is_worth,
            own: Expr::Defined(definition.name, definition, 0),
        }))
    }
}

/// The page of a path, unless it is the kit's or the compiler's own.
fn page_of(path: &str) -> Option<String> {
    let (name, page) = path.strip_prefix("Rattle.")?.split_once(".specs.")?;
    (name != "std" && !page.starts_with("declared.")).then(|| format!("{name}/{page}"))
}
