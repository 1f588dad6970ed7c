//! Generated tables: what must hold of every answer, and that the generators
//! reach every kind of answer often enough to be worth running.

mod common;

use second::{CheckAnswer, FillAnswer, State, CYCLE_NUMBERS, SOURCE_NUMBERS, WORK_WORDS};
use std::collections::{BTreeMap, BTreeSet};
use tables::builder::kind;
use tables::{
    checkable, clean, damaged, damaged_hosted, fillable, hosted, hosted_fillable, Random, Row,
    Size, Table, BLANK,
};

const SMALL: Size = Size::of(4, 12);
const MIDDLE: Size = Size::of(16, 24);

fn check(state: &mut State, table: &[u8]) -> CheckAnswer {
    state.check(table, WORK_WORDS, CYCLE_NUMBERS)
}

fn fill(state: &mut State, table: &[u8]) -> FillAnswer {
    state.fill(table, WORK_WORDS, SOURCE_NUMBERS)
}

/// Counts answers by their first word.
#[derive(Default)]
struct Shares {
    counts: BTreeMap<String, usize>,
    total: usize,
}

impl Shares {
    fn count(&mut self, answer: &str) {
        let word = answer.split(' ').next().unwrap().to_string();
        *self.counts.entry(word).or_default() += 1;
        self.total += 1;
    }

    fn percent(&self, word: &str) -> usize {
        100 * self.counts.get(word).copied().unwrap_or(0) / self.total
    }
}

#[test]
fn equal_seeds_give_equal_tables() {
    let tables = |seed: u64| -> Vec<Table> {
        let mut random = Random::new(seed);
        (0..20).map(|_| checkable(&mut random, SMALL)).collect()
    };
    assert_eq!(tables(5), tables(5));
    assert_ne!(tables(5), tables(6));
}

/// Each verdict has so many percent of the generator's tables.
fn assert_verdicts(
    seed: u64,
    (count, size): (usize, Size),
    generator: fn(&mut Random, Size) -> Table,
    percent: usize,
) {
    let mut random = Random::new(seed);
    let mut state = State::new();
    let mut shares = Shares::default();
    for _ in 0..count {
        let table = generator(&mut random, size);
        assert!((size.least..=size.most).contains(&table.rows.len()));
        shares.count(&check(&mut state, &table.bytes()).to_string());
    }
    for word in ["race-free", "race", "cycle", "overwritten"] {
        assert!(
            shares.percent(word) >= percent,
            "{word} {:?}",
            shares.counts
        );
    }
    assert_eq!(shares.percent("refused"), 0);
}

#[test]
fn each_verdict_of_a_check_has_a_tenth() {
    for size in [SMALL, MIDDLE] {
        assert_verdicts(1, (400, size), checkable, 10);
    }
}

#[test]
fn clean_tables_are_race_free() {
    let mut random = Random::new(7);
    let mut state = State::new();
    let (mut all, mut met) = (Shares::default(), Shares::default());
    for _ in 0..600 {
        let table = clean(&mut random, MIDDLE);
        let answer = check(&mut state, &table.bytes()).to_string();
        all.count(&answer);
        if table.rows.iter().any(|row| row.is_control_barrier()) {
            met.count(&answer);
        }
    }
    assert!(all.percent("race-free") >= 80, "{:?}", all.counts);
    assert!(met.percent("race-free") >= 80, "{:?}", met.counts);
    assert!(met.total >= 200);
}

#[test]
fn each_answer_of_a_fill_has_a_tenth() {
    for size in [SMALL, MIDDLE] {
        let mut random = Random::new(2);
        let mut state = State::new();
        let mut shares = Shares::default();
        for _ in 0..400 {
            let table = fillable(&mut random, size);
            shares.count(&fill(&mut state, &table.bytes()).to_string());
        }
        for word in ["filled", "none", "race"] {
            assert!(shares.percent(word) >= 10, "{word} {:?}", shares.counts);
        }
        assert_eq!(shares.percent("refused") + shares.percent("error"), 0);
    }
}

#[test]
fn damage_reaches_every_refusal_at_various_rows() {
    damage_reaches(damaged, &[1, 2, 3, 4, 5, 6, 7, 8, 9, 10, 14, 15]);
}

#[test]
fn damage_of_hosted_tables_reaches_their_refusals() {
    damage_reaches(damaged_hosted, &[4, 5, 6, 7, 8, 9, 16, 17, 18, 19, 20]);
}

fn damage_reaches(damage: fn(&mut Random, Size) -> Vec<u8>, numbers: &[u8]) {
    let mut random = Random::new(3);
    let mut state = State::new();
    let mut rows: BTreeMap<u8, BTreeSet<u16>> = BTreeMap::new();
    for _ in 0..3000 {
        let table = damage(&mut random, SMALL);
        if let CheckAnswer::Refused { number, row } = check(&mut state, &table) {
            rows.entry(number).or_default().insert(row);
        }
    }
    for number in numbers {
        let distinct = rows.get(number).map_or(0, BTreeSet::len);
        let of_table = *number < 5 || (16..=18).contains(number);
        let wanted = if of_table { 1 } else { 5 };
        assert!(distinct >= wanted, "refusal {number}: {distinct} rows");
    }
}

fn sort(row: &Row) -> &'static str {
    match row.kind {
        kind::BARRIER => "barrier",
        kind::CONTROL_BARRIER => "control",
        _ => "atomic",
    }
}

#[test]
fn generated_tables_reach_the_rules() {
    let mut random = Random::new(4);
    let mut state = State::new();
    let mut synchronized = BTreeMap::new();
    let (mut kinds, mut scopes, mut class_sets) =
        (BTreeSet::new(), BTreeSet::new(), BTreeSet::new());
    let mut atomic_lengths = BTreeSet::new();
    let (mut execution_scopes, mut meetings) = (BTreeSet::new(), BTreeSet::new());
    let mut equal_ranks = 0;
    for _ in 0..1200 {
        let table = checkable(&mut random, MIDDLE);
        check(&mut state, &table.bytes());
        for (a, x) in table.rows.iter().enumerate() {
            kinds.insert((x.kind, x.order, x.flags));
            scopes.insert((x.kind, x.scope));
            class_sets.insert(x.classes);
            if x.is_control_barrier() {
                execution_scopes.insert(x.class);
                meetings.insert(table.rows.iter().filter(|y| x.meets(**y)).count());
            }
            if x.is_atomic() {
                assert!(x.has_atomic_bytes());
                atomic_lengths.insert((x.kind, x.length));
            }
            for (b, y) in table.rows.iter().enumerate() {
                if state.synchronizes_with(a, b) {
                    *synchronized.entry([sort(x), sort(y)]).or_insert(0) += 1;
                }
                let same_place =
                    (x.start, x.length, x.reference) == (y.start, y.length, y.reference);
                let writers = x.is_atomic_writer() && y.is_atomic_writer();
                equal_ranks += usize::from(a < b && writers && same_place && x.rank == y.rank);
            }
        }
    }
    // Atomics, barriers and control barriers with each other.
    assert_eq!(synchronized.len(), 9, "{synchronized:?}");
    for (sorts, count) in &synchronized {
        let wanted = if sorts.contains(&"control") { 5 } else { 50 };
        assert!(*count > wanted, "{sorts:?} {count}");
    }
    let controls = synchronized[&["control", "control"]];
    assert!(controls > 200, "{controls}");
    assert_eq!(class_sets.len(), 16);
    // Plain rows have 6 sorts, atomic reads and writes 3, RMWs 1 + 2 + 2 + 4,
    // barriers 2 + 2 + 4, control barriers one more.
    assert_eq!(kinds.len(), 6 + 3 + 3 + 9 + 8 + 9);
    // Every kind in every scope.
    assert_eq!(scopes.len(), 7 * 5);
    // Every execution scope, and instances of two to many rows.
    assert_eq!(execution_scopes.len(), 5);
    assert!(meetings.contains(&2) && meetings.iter().max() > Some(&5));
    // Every atomic kind in both lengths.
    assert_eq!(atomic_lengths.len(), 3 * 2);
    assert!(equal_ranks > 20);
}

#[test]
fn each_verdict_of_hosted_tables_has_its_share() {
    assert_verdicts(8, (1000, MIDDLE), hosted, 5);
}

#[test]
fn check_and_fill_agree() {
    check_and_fill_agree_on(fillable);
}

#[test]
fn check_and_fill_agree_on_hosted_tables() {
    check_and_fill_agree_on(hosted_fillable);
}

fn check_and_fill_agree_on(generator: fn(&mut Random, Size) -> Table) {
    let mut random = Random::new(5);
    let mut state = State::new();
    for _ in 0..1500 {
        let mut table = generator(&mut random, SMALL);
        let has_blanks = table.rows.iter().any(|row| row.source == BLANK);
        match fill(&mut state, &table.bytes()) {
            FillAnswer::Filled(sources) => {
                assert_eq!(state.fillings_found(), 1);
                for (row, source) in table.rows.iter_mut().zip(sources.as_slice()) {
                    assert!(row.source == *source || row.source == BLANK);
                    row.source = *source;
                }
                assert_eq!(check(&mut state, &table.bytes()), CheckAnswer::RaceFree);
            }
            FillAnswer::None if !has_blanks => {
                let answer = check(&mut state, &table.bytes());
                assert!(matches!(
                    answer,
                    CheckAnswer::Cycle { .. } | CheckAnswer::Overwritten { .. }
                ));
            }
            FillAnswer::None => assert_eq!(state.fillings_found(), 0),
            FillAnswer::Race { .. } => {
                for row in &mut table.rows {
                    if row.source == BLANK {
                        row.source = second::INITIAL;
                    }
                }
                let answer = check(&mut state, &table.bytes());
                assert!(!matches!(
                    answer,
                    CheckAnswer::RaceFree | CheckAnswer::Refused { .. }
                ));
            }
            answer => panic!("{answer:?}"),
        }
    }
}

/// All cycles through a row that visit no lower row, each row at most once.
fn cycles(state: &State, path: &mut Vec<u16>, found: &mut Vec<Vec<u16>>) {
    let (first, last) = (path[0], path[path.len() - 1]);
    if state.edge_number(usize::from(last), usize::from(first)) != 0 {
        found.push(path.clone());
    }
    for next in first + 1..state.row_count() as u16 {
        let is_step = state.edge_number(usize::from(last), usize::from(next)) != 0;
        if is_step && !path.contains(&next) {
            path.push(next);
            cycles(state, path, found);
            path.pop();
        }
    }
}

#[test]
fn cycles_are_canonical() {
    let mut random = Random::new(6);
    let mut state = State::new();
    let size = Size::of(3, 8);
    let mut lengths = BTreeSet::new();
    for _ in 0..3000 {
        let table = checkable(&mut random, size);
        let answer = check(&mut state, &table.bytes());
        // The lowest row on any cycle is on one that visits no lower row.
        let expected = (0..state.row_count() as u16).find_map(|first| {
            let mut found = Vec::new();
            cycles(&state, &mut vec![first], &mut found);
            found
                .into_iter()
                .min_by_key(|rows| (rows.len(), rows.clone()))
        });
        let Some(expected) = expected else {
            assert!(!matches!(answer, CheckAnswer::Cycle { .. }));
            continue;
        };
        let CheckAnswer::Cycle { rows, edges } = answer else {
            panic!("cycle {expected:?} missed: {answer:?}");
        };
        assert_eq!(rows.as_slice(), expected);
        assert_eq!(edges.as_slice().len(), expected.len());
        for (place, edge) in edges.as_slice().iter().enumerate() {
            let next = expected[(place + 1) % expected.len()];
            let number = state.edge_number(usize::from(expected[place]), usize::from(next));
            assert_eq!(u16::from(number), *edge);
        }
        lengths.insert(expected.len());
    }
    assert!(lengths.len() >= 2, "{lengths:?}");
}
