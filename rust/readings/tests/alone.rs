//! Definitions that no linked function leads to: a table whose rows are moved,
//! and a reader that steps through a table.

use pages::{Evaluator, Program, Value};
use readings::{crates, numbers, told, with_room};
use second::{row_bytes, table::Row, RowsAnswer, State};
use std::fs;
use tables::{checkable, fillable, hosted, moved, Random, Size};

const SMALL: Size = Size::of(2, 5);

/// What the questions here are put together with.
const OWN: &str = "
use Rattle.std.specs.Prelude.{get_or}
use Rattle.door_step.specs.Steps.{steps_of}

renumbering : List ℕ → Renumbering
renumbering places = record { to = λ k. get_or places k k }

step : List ℕ → ℕ → Step
step s n = steps_of (record { table = s; at = 0 }) n
";

/// What a statement says, as a test; one about all numbers is asked about those
/// below `bound`.
const STATEMENTS: &str = "
use Rattle.std.specs.Prelude.{Bool, true, false, ltb, eqb}
use Rattle.finite.specs.Logic.{◌and◌, ◌or◌}
use Rattle.finite.specs.Below.{all_below}
infixr 0 ◌→◌
infixr 2 ◌⊎◌
infix 4 ◌≡◌
infix 50 ◌<◌

◌→◌ : Bool → Bool → Bool
true → b = b
false → b = true

◌⊎◌ : Bool → Bool → Bool
a ⊎ b = a or b

◌≡◌ : ℕ → ℕ → Bool
a ≡ b = eqb a b

◌<◌ : ℕ → ℕ → Bool
a < b = ltb a b

Moved : ℕ → List ℕ → List ℕ → Renumbering → Bool
Moved bound s s' π = true";

/// The statement that each number of these names has the rest.
fn as_test(statement: &str) -> String {
    let named = statement.strip_prefix('(');
    let Some((names, rest)) = named.and_then(|rest| rest.split_once(" : ℕ) → ")) else {
        return statement.to_string();
    };
    let names = names.split(' ').rev();
    names.fold(rest.to_string(), |inner, name| {
        format!("all_below bound (λ {name}. {inner})")
    })
}

/// The record `Moved` as a test that all of its statements hold.
fn moved_as_test() -> String {
    let page = fs::read_to_string(crates().join("model_page_order/specs/Moved.antt")).unwrap();
    let (uses, record) = page.split_once("pub record Moved (s s'").unwrap();
    // The words of the kit are those above, and those that are known without a page.
    let is_own =
        |line: &&str| line.starts_with("use Rattle") && !line.starts_with("use Rattle.std.");
    let uses: Vec<&str> = uses.lines().filter(is_own).collect();
    let lines = record
        .lines()
        .skip(1)
        .filter(|line| !line.trim().starts_with("--"));
    let fields = lines.collect::<Vec<&str>>().join(" ");
    let fields = fields
        .split("  pub ")
        .filter_map(|field| field.split_once(" : "));
    let tests = fields.map(|(_, statement)| format!(" and ({})", as_test(statement.trim())));
    let tests: Vec<String> = tests.collect();
    assert_eq!(tests.len(), 7, "statements of {page}");
    format!("{}\n{STATEMENTS}{}", uses.join("\n"), tests.concat())
}

fn pages() -> Evaluator {
    let mut program = Program::new(crates());
    program.add("alone/Own", OWN).unwrap();
    program.add("alone/Moved", &moved_as_test()).unwrap();
    Evaluator::new(program)
}

/// Where the rows of a table begin and end.
fn rows_of(table: &[u8]) -> (usize, usize) {
    let place = if table[4] == 3 { 8 } else { 6 };
    let begin = 8 + place * usize::from(table[5]);
    (begin, begin + 16 * usize::from(table[6]))
}

/// Whether the second table is the first with each row moved to its place, by
/// the words of docs/RULES.md.
fn is_moved(one: &[u8], two: &[u8], places: &[usize]) -> bool {
    let (begin, end) = rows_of(one);
    let number = |bytes: &[u8]| u16::from_be_bytes([bytes[0], bytes[1]]);
    let to = |row: u16| {
        places
            .get(usize::from(row))
            .map_or(row, |place| *place as u16)
    };
    let row = |table: &[u8], row: usize| table[begin + 16 * row..][..16].to_vec();
    let is_same_row = |from: usize| {
        let (mut before, after) = (row(one, from), row(two, places[from]));
        let source = to(number(&before[12..]));
        before[12..14].copy_from_slice(&source.to_be_bytes());
        before == after
    };
    let order = |from: usize, other: usize| {
        row(one, from)[1] != row(one, other)[1] || places[from] < places[other]
    };
    let mut ends: Vec<u8> = one[end..].iter().take(2).copied().collect();
    for end in one[end..].chunks_exact(2).skip(1) {
        ends.extend(to(number(end)).to_be_bytes());
    }
    one[..begin] == two[..begin]
        && (0..places.len()).all(is_same_row)
        && (0..places.len()).all(|other| (0..other).all(|from| order(from, other)))
        && ends == two[end..]
}

/// Asks the page whether one table is the other with its rows moved.
fn page_says(pages: &mut Evaluator, one: &[u8], two: &[u8], places: &[usize]) -> bool {
    pages.forget();
    let bound = Value::Number(one.len() as u64 + 3);
    let places: Vec<u64> = places.iter().map(|place| *place as u64).collect();
    let places = numbers(&places);
    let renumbering = pages.ask("alone/Own.renumbering", &[places]).unwrap();
    let arguments = [bound, numbers(one), numbers(two), renumbering];
    match pages.ask("alone/Moved.Moved", &arguments).unwrap() {
        Value::Truth(truth) => truth,
        _ => panic!("a statement without a truth"),
    }
}

/// Moved tables, and the same with something changed: the page and the words
/// of the rules agree.
#[test]
fn moved_tables() {
    let answers = with_room(|| {
        let mut pages = pages();
        let mut random = Random::new(31);
        let mut answers = [0, 0];
        for number in 0..60 {
            let table = match number % 3 {
                0 => checkable(&mut random, SMALL),
                1 => fillable(&mut random, SMALL),
                _ => hosted(&mut random, SMALL),
            };
            let moved = moved(&mut random, &table);
            let (one, mut two, mut places) = (table.bytes(), moved.table.bytes(), moved.places);
            match number % 4 {
                0 | 1 => {
                    let place = random.below(two.len());
                    two[place] ^= 1 << random.below(8);
                }
                2 => {
                    let (row, other) = (random.below(places.len()), random.below(places.len()));
                    places.swap(row, other);
                }
                _ => (),
            }
            let truth = is_moved(&one, &two, &places);
            assert_eq!(
                page_says(&mut pages, &one, &two, &places),
                truth,
                "{one:?} {two:?} {places:?}"
            );
            answers[usize::from(truth)] += 1;
        }
        answers
    });
    assert!(answers.iter().all(|count| *count >= 10), "{answers:?}");
}

fn said(row: Row) -> String {
    let small: Vec<String> = row_bytes(row)[..8].iter().map(u8::to_string).collect();
    let (start, reference, rank, source) = (row.start, row.reference, row.rank, row.source);
    format!(
        "Some {{{{{} {start} {reference} {rank}}} {{{source}}}}}",
        small.join(" ")
    )
}

/// A reader gives the rows one after the other, and then none for good.
#[test]
fn readers_of_rows() {
    let count = with_room(|| {
        let mut pages = pages();
        let mut random = Random::new(32);
        let mut count = 0;
        for _ in 0..40 {
            let table = fillable(&mut random, SMALL).bytes();
            let RowsAnswer::Rows(rows) = State::new().step_through(&table) else {
                continue;
            };
            pages.forget();
            let table = numbers(&table);
            for step in 0..rows.len() + 3 {
                let given = [table.clone(), Value::Number(step as u64)];
                let told = told(&mut pages, "alone/Own.step", &given).unwrap();
                let row = rows.get(step).map(|bytes| said(Row::from_bytes(bytes)));
                let expected = row.unwrap_or_else(|| "None".to_string());
                assert_eq!(told, expected, "step {step}");
                count += 1;
            }
        }
        count
    });
    assert!(count > 150, "{count}");
}
