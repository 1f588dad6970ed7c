//! Definitions changed in one place: connectives and comparisons exchanged, a
//! number one more or less, two arguments exchanged, a negation dropped, a case
//! left out.

use pages::{library, Clause, Definition, Expr, Found, Program, Ready, Value, Word};
use std::collections::{HashMap, HashSet};

/// A definition with one place changed.
pub struct Mutant {
    pub definition: &'static Definition,
    /// What was changed, as text.
    pub change: String,
    pub ready: &'static Ready,
}

/// Definitions that stay the same where the argument at this place and the
/// next are exchanged.
const SYMMETRIC: [(&str, usize); 21] = [
    ("beq", 0),
    ("agree", 2),
    ("apart", 1),
    ("clash", 0),
    ("common", 0),
    ("conflict", 1),
    ("meets", 0),
    ("mutual_rows", 1),
    ("mutually", 1),
    ("one_instance", 2),
    ("ordered_at", 1),
    ("overlap", 0),
    ("races", 1),
    ("same_agent", 1),
    ("same_instance", 0),
    ("same_location", 0),
    ("same_reference", 0),
    ("shares", 2),
    ("together", 1),
    ("two_moments", 1),
    ("unordered", 1),
];

/// What is known of the definitions that are changed.
#[derive(Default)]
struct Known {
    /// The types of arguments by the last name of a definition; none where two
    /// definitions of that name have others.
    types: HashMap<String, Vec<String>>,
    /// The names of the number 0.
    zeros: HashSet<String>,
}

/// Every mutant of these definitions.
pub fn mutants(program: &Program, definitions: &[&'static Definition]) -> Found<Vec<Mutant>> {
    let mut known = Known::default();
    for definition in definitions {
        let mut kinds = types(&definition.kind);
        kinds.pop();
        let types = known.types.entry(definition.name.to_string());
        let types = types.or_insert_with(|| kinds.clone());
        if *types != kinds {
            types.clear();
        }
        if let [(_, body)] = &program.ready(definition)?.clauses[..] {
            if number(body) == Some(0) {
                known.zeros.insert(definition.name.to_string());
            }
        }
    }
    let mut found = Vec::new();
    for definition in definitions {
        let changes = changes(&program.ready(definition)?.clauses, &known);
        found.extend(changes.into_iter().map(|(change, clauses)| Mutant {
            definition,
            change,
            ready: Ready::new(definition, clauses),
        }));
    }
    Ok(found)
}

/// The types of a function's arguments, then that of its result.
fn types(words: &[Word]) -> Vec<String> {
    let arrow = outside(words, |word| word == "→").unwrap_or(words.len());
    let (first, rest) = words.split_at(arrow);
    let mut kinds: Vec<String> = bound(first).into_iter().map(|(_, kind)| kind).collect();
    if kinds.is_empty() && first.first() != Some(&"{") {
        kinds.push(first.join(" "));
    }
    if let [_, rest @ ..] = rest {
        kinds.extend(types(rest));
    }
    kinds
}

/// The place of the first such word that stands in no parentheses; a
/// parenthesis that closes stands outside.
fn outside(words: &[Word], is_it: impl Fn(Word) -> bool) -> Option<usize> {
    let mut depth = 0;
    words.iter().position(|word| {
        depth += i32::from(["(", "{"].contains(word));
        depth -= i32::from([")", "}"].contains(word));
        depth == 0 && is_it(word)
    })
}

/// Each name of `(name .. : type) ..` with its type; those in braces are left
/// out.
fn bound(mut words: &[Word]) -> Vec<(Word, String)> {
    let mut found = Vec::new();
    while let [first, ..] = words {
        let end = match *first {
            "(" | "{" => outside(words, |word| word == ")" || word == "}").unwrap_or(0),
            _ => 0,
        };
        let inside = &words[..end];
        let colon = inside.iter().position(|word| *word == ":");
        if let ("(", Some(colon)) = (*first, colon) {
            let kind = inside[colon + 1..].join(" ");
            let names = inside[1..colon].iter();
            found.extend(names.map(|name| (*name, kind.clone())));
        }
        words = &words[end + 1..];
    }
    found
}

/// The clauses with one changed, or left out.
fn changes(clauses: &[Clause], known: &Known) -> Vec<(String, Vec<Clause>)> {
    let mut found = Vec::new();
    for (number, (patterns, body)) in clauses.iter().enumerate() {
        for (change, body) in changed(body, known) {
            let mut clauses = clauses.to_vec();
            clauses[number] = (patterns.clone(), body);
            found.push((change, clauses));
        }
        if clauses.len() > 1 {
            let mut rest = clauses.to_vec();
            rest.remove(number);
            found.push((format!("without clause {number}"), rest));
        }
    }
    found
}

/// The expression with one place changed, in every way.
fn changed(written: &Expr, known: &Known) -> Vec<(String, Expr)> {
    let here = here(written, known)
        .into_iter()
        .filter(|other| text(other) != text(written));
    let here = here.map(|other| (format!("{} -> {}", text(written), text(&other)), other));
    let mut all: Vec<(String, Expr)> = here.collect();
    for (place, part) in parts(&mut written.clone()).into_iter().enumerate() {
        let is_left = match written {
            Expr::Apply(head, _) => match &**head {
                // `let`: what nothing asks for could be anything.
                Expr::Function(names, _, body) => place > 0 || mentions(body, names[0]),
                // What stands for a missing element isn't changed, nor a head.
                head => place > 0 && !(place == 3 && text(head) == "get_or"),
            },
            _ => true,
        };
        if is_left {
            let inside = changed(part, known).into_iter();
            all.extend(inside.map(|(change, part)| {
                let mut whole = written.clone();
                *parts(&mut whole)[place] = part;
                (change, whole)
            }));
        }
    }
    all
}

/// The changes of an expression's outermost part.
fn here(written: &Expr, known: &Known) -> Vec<Expr> {
    let constant = |number: u64| Expr::Constant(number.to_string().leak(), Value::Number(number));
    match (written, number(written)) {
        (_, Some(0)) => vec![constant(1)],
        (_, Some(number)) => vec![constant(number + 1), constant(number - 1)],
        (Expr::Apply(head, arguments), _) => of_head(head, arguments, known),
        _ => Vec::new(),
    }
}

/// A number that is written in digits.
fn number(written: &Expr) -> Option<u64> {
    match written {
        Expr::Constant(word, Value::Number(_)) => word.parse().ok(),
        _ => None,
    }
}

fn of_head(head: &Expr, arguments: &[Expr], known: &Known) -> Vec<Expr> {
    let Some(name) = name(head) else {
        return Vec::new();
    };
    let other = |word: Word| {
        let head = library(word).unwrap_or_else(|| panic!("{word} is not known"));
        Expr::Apply(Box::new(head), arguments.to_vec())
    };
    let swapped = |place: usize| {
        let mut arguments = arguments.to_vec();
        arguments.swap(place, place + 1);
        Expr::Apply(Box::new(head.clone()), arguments)
    };
    let only = |place: usize| arguments[place].clone();
    match (name, arguments.len()) {
        ("◌and◌", 2) => vec![other("◌or◌"), only(0), only(1)],
        ("◌or◌", 2) => vec![other("◌and◌"), only(0), only(1)],
        ("not" | "suc", 1) => vec![only(0)],
        ("ltb", 2) => vec![other("leb"), swapped(0)],
        ("leb", 2) => vec![other("ltb"), swapped(0)],
        // No number is less than 0, so that `leb` would be the same.
        ("eqb", 2) if is_zero(&arguments[1], known) => vec![other("ltb")],
        ("eqb", 2) => vec![other("leb")],
        ("cond", 3) => vec![swapped(1), only(1), only(2)],
        ("◌+◌", 2) if number(&arguments[1]) == Some(0) => Vec::new(),
        ("◌+◌", 2) => vec![other("◌-◌"), only(0), only(1)],
        ("◌-◌", 2) => vec![other("◌+◌"), only(0)],
        ("◌*◌", 2) => vec![other("◌+◌")],
        ("◌/◌", 2) => vec![other("◌%◌"), only(0)],
        ("◌%◌", 2) => vec![other("◌/◌"), only(0)],
        ("◌++◌", 2) => vec![swapped(0), only(0), only(1)],
        _ => {
            let last = name.rsplit('.').next().unwrap_or(name);
            let places = 0..arguments.len().saturating_sub(1);
            let is_same = |place: &usize| exchangeable(last, *place, arguments.len(), known);
            places.filter(is_same).map(swapped).collect()
        }
    }
}

/// The expressions that it is made of.
fn parts(written: &mut Expr) -> Vec<&mut Expr> {
    match written {
        Expr::Apply(head, arguments) => match &mut **head {
            // A `let`'s value stands before its body.
            Expr::Function(_, _, body) => arguments.iter_mut().chain([&mut **body]).collect(),
            head => [head].into_iter().chain(arguments).collect(),
        },
        Expr::Record(fields) => fields.iter_mut().map(|(_, value)| value).collect(),
        Expr::Field(part, _) | Expr::Function(_, _, part) => vec![part],
        _ => Vec::new(),
    }
}

/// The word of a name or a number.
fn name(written: &Expr) -> Option<Word> {
    match written {
        Expr::Local(word, _) | Expr::Constant(word, _) | Expr::Defined(word, ..) => Some(word),
        Expr::Native((word, ..)) | Expr::Constructor(word) => Some(word),
        _ => None,
    }
}

/// Whether a name occurs.
fn mentions(written: &Expr, word: &str) -> bool {
    let mut written = written.clone();
    let mut inside = parts(&mut written).into_iter();
    inside.any(|part| mentions(part, word)) || name(&written) == Some(word)
}

fn is_zero(written: &Expr, known: &Known) -> bool {
    number(written) == Some(0) || name(written).is_some_and(|name| known.zeros.contains(name))
}

/// Whether two arguments, one after the other, have one type. A definition in
/// a module may be given fewer than it has: then the last ones are meant.
fn exchangeable(name: &str, place: usize, given: usize, known: &Known) -> bool {
    if SYMMETRIC.contains(&(name, place)) {
        return false;
    }
    let Some(kinds) = known.types.get(name) else {
        // A constructor, or a native of none that can be exchanged.
        return name.chars().next().is_some_and(char::is_uppercase);
    };
    let place = place + kinds.len().saturating_sub(given);
    kinds.get(place).is_some() && kinds.get(place) == kinds.get(place + 1)
}

/// An expression as text, briefly.
fn text(written: &Expr) -> String {
    match written {
        Expr::Apply(head, arguments) => {
            let parts: Vec<String> = arguments.iter().map(inner).collect();
            match (&**head, name(head)) {
                (Expr::Function(names, _, body), _) => {
                    format!(
                        "let {} = {} in {}",
                        names[0],
                        text(&arguments[0]),
                        text(body)
                    )
                }
                (_, Some(name)) if parts.len() == 2 && name.starts_with('◌') => {
                    format!("{} {} {}", parts[0], name.trim_matches('◌'), parts[1])
                }
                _ => format!("{} {}", inner(head), parts.join(" ")),
            }
        }
        Expr::Field(of, name) => format!("{}.{name}", inner(of)),
        Expr::Function(names, _, body) => format!("λ {}. {}", names.join(" "), text(body)),
        _ => name(written).unwrap_or("record").to_string(),
    }
}

fn inner(written: &Expr) -> String {
    match (written, name(written)) {
        (_, None) if !matches!(written, Expr::Field(..)) => format!("({})", text(written)),
        _ => text(written),
    }
}
