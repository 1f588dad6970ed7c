//! A page taken apart into words and declarations. What a definition says is
//! read when it is first called, so that proofs are passed over.

use crate::program::Ready;
use std::cell::Cell;
use std::collections::{HashMap, HashSet};

/// A page stays once it is read, and so do its words.
pub type Word = &'static str;

/// The words of a line, without a comment. A dot ends a word where a space
/// comes after it; after a parenthesis it begins one.
pub fn words(line: &str) -> Vec<Word> {
    let line = format!(" {line} ");
    let said = line.split(" -- ").next().unwrap_or_default();
    let mut spaced = format!("{said} ").replace(". ", " . ");
    for mark in ["(", ")", "{", "}", ";", ",", "λ"] {
        spaced = spaced.replace(mark, &format!(" {mark} "));
    }
    spaced.leak().split_whitespace().collect()
}

/// What a page declares and what it uses.
#[derive(Default)]
pub struct Page {
    pub definitions: HashMap<Word, Definition>,
    /// The definition that was declared last: clauses are of it.
    last: Word,
    pub constructors: HashSet<Word>,
    /// The paths that names are taken from. Another page is used by its short
    /// name and a dot.
    pub uses: HashMap<String, Word>,
    pub operators: Operators,
}

/// An operator by itself: its name, how tightly it binds, and whether it groups
/// to the right.
pub type Operators = HashMap<Word, (Word, u32, bool)>;

/// A definition by clauses.
#[derive(Clone, Default)]
pub struct Definition {
    pub page: String,
    pub name: Word,
    /// What the modules that it stands in give it.
    pub parameters: Vec<Word>,
    /// The words of its type, those of its modules' parameters first.
    pub kind: Vec<Word>,
    pub clauses: Vec<Vec<Word>>,
    /// Its clauses once it was called, or others in their place.
    pub ready: Cell<Option<&'static Ready>>,
}

/// How far a line is indented, and its words.
type Line = (usize, Vec<Word>);

impl Page {
    pub fn read(name: &str, text: &str) -> Page {
        let indent = |line: &str| line.len() - line.trim_start().len();
        let lines = text.lines().map(|line| (indent(line), words(line)));
        let lines: Vec<Line> = lines.filter(|(_, words)| !words.is_empty()).collect();
        let around = Definition {
            page: name.to_string(),
            ..Definition::default()
        };
        let mut page = Page::default();
        page.block(&lines, &around);
        page
    }

    /// A declaration begins a line, and the lines that are indented more are its
    /// own. A definition takes over what the modules around it give.
    fn block(&mut self, mut lines: &[Line], around: &Definition) {
        while let [(indent, first), after @ ..] = lines {
            let is_inside = |line: &&Line| line.0 > *indent;
            let (body, next) = after.split_at(after.iter().take_while(is_inside).count());
            lines = next;
            let is_before = |word: &&Word| ["abbrev", "unfoldable", "pub"].contains(*word);
            let before = first.iter().take_while(is_before).count();
            match first[before..] {
                ["use", path, ref names @ ..] => self.add_use(path, names),
                [fix @ ("infixl" | "infixr" | "infix"), binds, ref names @ ..] => {
                    let binds = (binds.parse().unwrap_or(0), fix == "infixr");
                    let entry = |name: &Word| (name.trim_matches('◌'), (*name, binds.0, binds.1));
                    self.operators.extend(names.iter().map(entry));
                }
                ["module", _, ref head @ ..] => {
                    let mut inner = around.clone();
                    inner.parameters.extend(parameters(head));
                    inner.kind.extend(head.iter().chain(&["→"]));
                    self.block(body, &inner);
                }
                ["data", ..] => {
                    let lines = body.iter().filter(|line| line.0 == body[0].0);
                    let names =
                        lines.flat_map(|(_, words)| words.split(|word| *word == ":").next());
                    self.constructors.extend(names.flatten());
                }
                ["record" | "unfolding" | "mod", ..] => (),
                ref words => {
                    let more = body.iter().flat_map(|(_, words)| words);
                    self.add_clause_or_type(words.iter().chain(more).copied().collect(), around);
                }
            }
        }
    }

    fn add_use(&mut self, path: Word, names: &[Word]) {
        let alias = match names {
            ["{", names @ .., "}"] => {
                let path = path.trim_end_matches('.');
                let uses = names.iter().map(|name| (name.to_string(), path));
                return self.uses.extend(uses);
            }
            ["as", alias] => alias,
            _ => path.rsplit('.').next().unwrap_or(path),
        };
        self.uses.insert(format!("{alias}."), path);
    }

    fn add_clause_or_type(&mut self, words: Vec<Word>, around: &Definition) {
        if let [name, ":", kind @ ..] = &words[..] {
            let mut definition = around.clone();
            definition.name = name;
            definition.kind.extend(kind);
            self.definitions.insert(name, definition);
            self.last = name;
        } else if let Some(last) = self.definitions.get_mut(self.last) {
            let mut left = words.iter().take_while(|word| **word != "=");
            if left.any(|word| *word == last.name.trim_matches('◌')) {
                last.clauses.push(words);
            }
        }
    }
}

/// The names of `(name .. : type) ..`; those in braces are left out.
fn parameters(head: &[Word]) -> impl Iterator<Item = Word> + '_ {
    let groups = head.split(|word| [")", "}"].contains(word));
    let groups = groups.filter_map(|group| group.strip_prefix(&["("]));
    groups.flat_map(|group| group.iter().take_while(|word| **word != ":").copied())
}
