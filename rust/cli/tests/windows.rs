//! What docs/RECORDING.md says of a run that is cut into tables, held against generated runs: which pairs of rows race
//! in the run, and which in a part of it.

use second::{Chains, State, CYCLE_NUMBERS, INITIAL, WORK_WORDS};
use std::collections::BTreeSet;
use tables::builder::{flags, kind, Row, Table};
use tables::{chained, checkable, hosted, Build, Random, Size};

const SIZE: Size = Size { least: 6, most: 40 };
/// Generated runs for each statement.
const RUNS: usize = 1500;

/// Pairs of rows that race, lower first; none of a table that is refused.
fn racing(state: &mut State, table: &Table, chains: Chains) -> Option<BTreeSet<(usize, usize)>> {
    let answer = state.check_with(chains, &table.bytes(), WORK_WORDS, CYCLE_NUMBERS);
    if answer.to_string().starts_with("refused") {
        return None;
    }
    let count = table.rows.len();
    let mut pairs = BTreeSet::new();
    for first in 0..count {
        for second in first + 1..count {
            let row = table.rows[first];
            if (u32::from(row.start)..row.end()).any(|byte| state.races_at(first, second, byte)) {
                pairs.insert((first, second));
            }
        }
    }
    Some(pairs)
}

/// The table of the rows that are kept, and their numbers in the run. A source that is left out becomes the initial
/// value, a dependency of a row that is left out goes with it.
fn part(run: &Table, is_kept: impl Fn(usize) -> bool) -> (Table, Vec<usize>) {
    let kept: Vec<usize> = (0..run.rows.len()).filter(|row| is_kept(*row)).collect();
    let place = |row: u16| kept.iter().position(|other| *other == usize::from(row));
    let rows = kept.iter().map(|row| {
        let row = run.rows[*row];
        let source = place(row.source).map_or(INITIAL, |place| place as u16);
        Row { source, ..row }
    });
    let dependencies = run.dependencies.iter();
    let dependencies = dependencies
        .filter_map(|[first, second]| Some([place(*first)? as u16, place(*second)? as u16]));
    let table = Table {
        rows: rows.collect(),
        dependencies: dependencies.collect(),
        ..run.clone()
    };
    (table, kept)
}

/// The pairs of a part by their numbers in the run.
fn renumbered(pairs: &BTreeSet<(usize, usize)>, kept: &[usize]) -> BTreeSet<(usize, usize)> {
    let pairs = pairs.iter();
    pairs
        .map(|(first, second)| (kept[*first], kept[*second]))
        .collect()
}

/// The run's racing pairs of which both rows are kept.
fn within(pairs: &BTreeSet<(usize, usize)>, kept: &[usize]) -> BTreeSet<(usize, usize)> {
    let both = |(first, second): &&(usize, usize)| kept.contains(first) && kept.contains(second);
    pairs.iter().filter(both).copied().collect()
}

fn generated(random: &mut Random, number: usize) -> (Table, Chains) {
    match number % 4 {
        0 => (hosted(random, SIZE), Chains::Off),
        1 => (chained(random, SIZE), Chains::On),
        _ => (checkable(random, SIZE), Chains::Off),
    }
}

/// Runs that are accepted, a part of each that `keep` decides on, and the racing pairs of both.
fn for_parts(
    seed: u64,
    mut keep: impl FnMut(&mut Random, &Table) -> Option<Vec<bool>>,
    mut judge: impl FnMut(&Table, [BTreeSet<(usize, usize)>; 2], &[usize]),
) -> usize {
    let mut random = Random::new(seed);
    let mut state = State::new();
    let mut seen = 0;
    for number in 0..RUNS {
        let (run, chains) = generated(&mut random, number);
        let Some(is_kept) = keep(&mut random, &run) else {
            continue;
        };
        let Some(all) = racing(&mut state, &run, chains) else {
            continue;
        };
        let (table, kept) = part(&run, |row| is_kept[row]);
        let shown = racing(&mut state, &table, chains).expect("a part of an accepted run");
        let shown = renumbered(&shown, &kept);
        judge(&run, [within(&all, &kept), shown], &kept);
        seen += 1;
    }
    seen
}

/// Whether a row can order nothing but itself: it may be left out.
fn is_bare(run: &Table, row: usize) -> bool {
    let number = row as u16;
    let made = flags::MAKE_AVAILABLE | flags::MAKE_VISIBLE;
    let is_depended_on = run.dependencies.iter().flatten().any(|end| *end == number);
    run.rows[row].is_plain() && run.rows[row].flags & made == 0 && !is_depended_on
}

/// Cut by bytes: without some plain rows that make nothing available or visible, all other pairs race as they did.
#[test]
fn without_bare_rows_the_others_race_as_before() {
    let mut left_out = 0;
    let mut races = 0;
    let seen = for_parts(
        1,
        |random, run| {
            let rows = 0..run.rows.len();
            let kept = rows.map(|row| !is_bare(run, row) || random.percent(60));
            Some(kept.collect())
        },
        |run, [expected, shown], kept| {
            assert_eq!(expected, shown, "{run:?} {kept:?}");
            left_out += run.rows.len() - kept.len();
            races += shown.len();
        },
    );
    assert!(
        seen > RUNS / 2 && left_out > 500 && races > 500,
        "{seen} {left_out} {races}"
    );
}

/// Any rows left out, atomic writes aside: no race between two that stay is missed, though one may be shown that the
/// run hasn't.
#[test]
fn with_all_atomic_writes_no_race_is_missed() {
    let mut false_alarms = 0;
    let mut races = 0;
    let seen = for_parts(
        2,
        |random, run| {
            let rows = run.rows.iter();
            let kept = rows.map(|row| row.kind == kind::ATOMIC_WRITE || random.percent(70));
            Some(kept.collect())
        },
        |run, [expected, shown], kept| {
            assert!(expected.is_subset(&shown), "{run:?} {kept:?}");
            false_alarms += shown.difference(&expected).count();
            races += expected.len();
        },
    );
    assert!(seen > RUNS / 2 && races > 300, "{seen} {races}");
    assert!(false_alarms > 0, "there are such");
}

/// Without an atomic write that ends a release sequence, a race can be missed.
#[test]
fn without_an_atomic_write_a_race_is_missed() {
    let data = |row: Row| row.at(0, 4).reference(1);
    let flag = |row: Row| row.at(4, 4).reference(2);
    let rows = [
        data(Row::write(0)),
        flag(Row::atomic_write(0, 1))
            .scope(4)
            .release(1)
            .make_available(),
        flag(Row::atomic_write(1, 2)).scope(4),
        flag(Row::rmw(1, 2, 3)).scope(4),
        flag(Row::atomic_read(2, 3))
            .scope(4)
            .acquire(1)
            .make_visible(),
        data(Row::read(2, 0)),
    ];
    let run = Table::of_one_workgroup(3, &rows);
    let mut state = State::new();
    let race = BTreeSet::from([(0, 5)]);
    assert_eq!(racing(&mut state, &run, Chains::Off), Some(race));
    let (table, _) = part(&run, |row| row != 2);
    assert_eq!(
        racing(&mut state, &table, Chains::Off),
        Some(BTreeSet::new())
    );
}

/// Whether the rows stand as they took effect: what is read stands before the reader, writes of a location stand by
/// rank, dependencies lead on, and rows of one barrier stand together.
fn is_in_time(run: &Table) -> bool {
    let rows = &run.rows;
    let is_later = |first: u16, second: u16| match run.version {
        1 => second > first,
        _ => (1..=32767).contains(&second.wrapping_sub(first)),
    };
    let pairs = || {
        (0..rows.len()).flat_map(|first| (first + 1..rows.len()).map(move |second| (first, second)))
    };
    let reads = rows.iter().enumerate();
    let mut reads = reads.filter(|(_, row)| row.reads());
    reads.all(|(number, row)| row.source == INITIAL || usize::from(row.source) < number)
        && pairs().all(|(first, second)| {
            let (first, second) = (rows[first], rows[second]);
            let is_one =
                first.is_atomic_writer() && second.is_atomic_writer() && first.ranks_with(second);
            !is_one || is_later(first.rank, second.rank)
        })
        && run
            .dependencies
            .iter()
            .all(|[first, second]| first < second)
        && pairs().all(|(first, second)| {
            let is_one = rows[first].is_control_barrier() && rows[first].meets(rows[second]);
            !is_one || (first..second).all(|row| rows[row].meets(rows[second]))
        })
}

/// Cut by time: of rows that stand as they took effect, those from one place to another race as they do in the run.
#[test]
fn a_window_of_time_shows_its_own_races() {
    let mut races = 0;
    let mut outside = 0;
    let seen = for_parts(
        3,
        |random, run| {
            if !is_in_time(run) {
                return None;
            }
            let count = run.rows.len();
            let (mut from, mut to) = (
                random.below(count / 2 + 1),
                count - random.below(count / 2 + 1),
            );
            // Not among the rows of a barrier.
            let is_cut = |at: usize| {
                at > 0
                    && at < count
                    && run.rows[at].is_control_barrier()
                    && run.rows[at - 1].meets(run.rows[at])
            };
            while is_cut(from) {
                from -= 1;
            }
            while is_cut(to) {
                to += 1;
            }
            Some((0..count).map(|row| (from..to).contains(&row)).collect())
        },
        |run, [expected, shown], kept| {
            assert_eq!(expected, shown, "{run:?} {kept:?}");
            races += shown.len();
            outside += run.rows.len() - kept.len();
        },
    );
    assert!(
        seen > RUNS / 20 && races > 50 && outside > 100,
        "{seen} {races} {outside}"
    );
}
