//! Generated tables, checked and filled by both.

use differential::{Comparison, Tally, FILLED, VERDICTS};
use std::collections::BTreeSet;
use tables::builder::{kind, order};
use tables::{checkable, examples, fillable, Build, Random, Row, Size, Table, BLANK, INITIAL};

/// What a set of tables has in it that the rules treat apart.
#[derive(Default)]
struct Features {
    synchronized_by_barriers: usize,
    synchronized_by_control: usize,
    references_over_the_same_bytes: usize,
    partial_overlaps: usize,
    chained_rmws: usize,
    ended_by_own_writes: usize,
    equal_ranks: usize,
    /// Pairs of writers whose counter ran out between them.
    run_out: usize,
    class_sets: BTreeSet<u8>,
}

impl Features {
    /// Adds the table that was compared last, unless it was refused.
    fn add(&mut self, table: &Table, comparison: &Comparison) {
        if comparison.state.row_count() == 0 {
            return;
        }
        for (a, x) in table.rows.iter().enumerate() {
            self.class_sets.insert(x.classes);
            let source = table.rows.get(usize::from(x.source));
            let is_chained = source.is_some_and(|source| source.kind == kind::RMW);
            self.chained_rmws += usize::from(x.kind == kind::RMW && is_chained);
            for (b, y) in table.rows.iter().enumerate() {
                let is_barrier = x.kind == kind::BARRIER && y.kind == kind::BARRIER;
                let is_synchronized = is_barrier && comparison.state.synchronizes_with(a, b);
                self.synchronized_by_barriers += usize::from(is_synchronized);
                let by_control = comparison.state.control_barrier(a, b).is_some();
                self.synchronized_by_control += usize::from(by_control);
                let is_ended = reads_own_write(table, comparison, a, b);
                self.ended_by_own_writes += usize::from(is_ended);
                let is_run_out = comparison.state.modification_order(a, b) && x.rank > y.rank;
                self.run_out += usize::from(is_run_out);
                if a < b {
                    self.add_pair(*x, *y);
                }
            }
        }
    }

    fn add_pair(&mut self, x: Row, y: Row) {
        let overlap = x.is_access() && y.is_access() && x.overlaps(y);
        let partial = overlap && !x.covers(y) && !y.covers(x);
        self.partial_overlaps += usize::from(partial);
        self.references_over_the_same_bytes += usize::from(overlap && x.reference != y.reference);
        let same_place = (x.start, x.length, x.reference) == (y.start, y.length, y.reference);
        let writers = x.is_atomic_writer() && y.is_atomic_writer();
        self.equal_ranks += usize::from(writers && same_place && x.rank == y.rank);
    }
}

/// Whether row b acquires from a later write by the agent of the release a,
/// which ends a's sequence as any other agent's write does.
fn reads_own_write(table: &Table, comparison: &Comparison, a: usize, b: usize) -> bool {
    let (x, y) = (table.rows[a], table.rows[b]);
    let source = usize::from(y.source);
    let is_own = table
        .rows
        .get(source)
        .is_some_and(|write| write.kind == kind::ATOMIC_WRITE && write.agent == x.agent);
    is_own
        && x.is_atomic_writer()
        && [order::RELEASE, order::BOTH].contains(&x.order)
        && [order::ACQUIRE, order::BOTH].contains(&y.order)
        && comparison.state.modification_order(a, source)
        && comparison.state.mutually_ordered(a, b)
}

/// Checks and fills generated tables; the features are those of the check.
fn compare_checkable(seed: u64, count: usize, size: Size) -> (Tally, Features) {
    let mut random = Random::new(seed);
    let mut comparison = Comparison::new(seed);
    let (mut tally, mut features) = (Tally::default(), Features::default());
    for _ in 0..count {
        let table = checkable(&mut random, size);
        let bytes = table.bytes();
        tally.check(&comparison.check(&bytes).unwrap());
        features.add(&table, &comparison);
        comparison.fill(&bytes).unwrap();
    }
    (tally, features)
}

/// Fills generated tables with blanks; a check refuses most of them.
fn compare_fillable(seed: u64, count: usize, size: Size) -> Tally {
    let mut random = Random::new(seed);
    let mut comparison = Comparison::new(seed);
    let mut tally = Tally::default();
    for _ in 0..count {
        let bytes = fillable(&mut random, size).bytes();
        tally.fill(&comparison.fill(&bytes).unwrap());
        comparison.check(&bytes).unwrap();
    }
    tally
}

#[test]
fn small_tables_checked() {
    let (tally, features) = compare_checkable(101, 8000, Size::SMALL);
    assert_eq!(tally.total(), 8000);
    tally.assert_one_in(10, &VERDICTS);
    assert_eq!(features.class_sets, (0..16).collect());
}

#[test]
fn middle_tables_checked() {
    let (tally, features) = compare_checkable(102, 4000, Size::MIDDLE);
    assert_eq!(tally.total(), 4000);
    tally.assert_one_in(10, &VERDICTS);
    assert_eq!(features.class_sets, (0..16).collect());
    assert!(features.synchronized_by_barriers > 1000);
    assert!(features.synchronized_by_control > 1000);
    assert!(features.references_over_the_same_bytes > 1000);
    assert!(features.partial_overlaps > 500);
    assert!(features.chained_rmws > 1000);
    assert!(features.ended_by_own_writes > 100);
    assert!(features.equal_ranks > 100);
    assert!(features.run_out > 1000);
}

#[test]
fn small_tables_filled() {
    let tally = compare_fillable(103, 8000, Size::SMALL);
    assert_eq!(tally.total(), 8000);
    assert_eq!(tally.of("fill not compared"), 0);
    tally.assert_one_in(10, &FILLED);
}

#[test]
fn middle_tables_filled() {
    let tally = compare_fillable(104, 4000, Size::MIDDLE);
    assert_eq!(tally.total(), 4000);
    assert_eq!(tally.of("fill not compared"), 0);
    tally.assert_one_in(10, &FILLED);
}

#[test]
fn largest_tables_checked() {
    let (tally, _) = compare_checkable(105, 60, Size::LARGEST);
    assert_eq!(tally.total(), 60);
    tally.assert_one_in(20, &VERDICTS);
}

#[test]
fn largest_tables_filled() {
    let tally = compare_fillable(106, 60, Size::LARGEST);
    assert_eq!(tally.total(), 60);
    assert_eq!(tally.of("fill not compared"), 0);
    tally.assert_one_in(20, &FILLED);
}

/// Few bytes, references and agents, so that rows meet in every way.
fn crowded(random: &mut Random) -> Table {
    let agents = [[0, 0, 0], [0, 0, 1], [0, 1, 0]];
    let row_count = random.between(2, 8);
    let rows: Vec<Row> = (0..row_count).map(|_| crowded_row(random)).collect();
    let mut table = Table::new(&agents, &rows);
    for reader in 0..row_count {
        if table.rows[reader].reads() {
            table.rows[reader].source = crowded_source(random, &table.rows, reader);
        }
    }
    table
}

fn crowded_row(random: &mut Random) -> Row {
    let agent = random.pick(&[0, 0, 1, 1, 2]);
    let rank = random.below(6) as u16;
    let classes = random.between(1, 3) as u8;
    let scope = random.pick(&[1, 2, 2, 4]);
    let row = match random.below(10) {
        0 | 1 => Row::read(agent, INITIAL),
        2 | 3 => Row::write(agent),
        4 => Row::atomic_read(agent, INITIAL),
        5 => Row::atomic_read(agent, INITIAL)
            .acquire(classes)
            .make_visible(),
        6 => Row::atomic_write(agent, rank),
        7 => Row::atomic_write(agent, rank)
            .release(classes)
            .make_available(),
        8 => Row::rmw(agent, INITIAL, rank),
        _ => return Row::barrier(agent, random.between(1, 3) as u8, classes).scope(scope),
    };
    let row = if row.is_plain() {
        row
    } else {
        row.scope(scope)
    };
    let reference = random.pick(&[0, 0, 1]);
    let (start, length) = if row.is_plain() {
        (random.pick(&[0, 0, 0, 2]), random.pick(&[4, 4, 4, 2]))
    } else {
        random.pick(&[(0, 4), (0, 4), (0, 4), (4, 4), (0, 8)])
    };
    let row = row.at(start, length);
    row.reference(reference).class(reference as u8)
}

/// Nearly always a source that fits; a blank now and then.
fn crowded_source(random: &mut Random, rows: &[Row], reader: usize) -> u16 {
    if rows[reader].is_plain() && random.percent(10) {
        return BLANK;
    }
    let mut sources = vec![INITIAL];
    for (place, row) in rows.iter().enumerate() {
        if place != reader && row.writes() && row.covers(rows[reader]) {
            sources.push(place as u16);
        }
    }
    random.pick(&sources)
}

#[test]
fn crowded_tables() {
    let mut random = Random::new(107);
    let mut comparison = Comparison::new(107);
    let (mut tally, mut features) = (Tally::default(), Features::default());
    for _ in 0..30_000 {
        let table = crowded(&mut random);
        let bytes = table.bytes();
        tally.check(&comparison.check(&bytes).unwrap());
        features.add(&table, &comparison);
        tally.fill(&comparison.fill(&bytes).unwrap());
    }
    for words in VERDICTS.iter().chain(&FILLED) {
        assert!(tally.of(words) >= 50, "{words}:\n{tally}");
    }
    assert!(features.partial_overlaps > 10_000);
    assert!(features.references_over_the_same_bytes > 10_000);
    assert!(features.chained_rmws > 1000);
    assert!(features.equal_ranks > 200);
}

#[test]
fn examples_agree() {
    let mut comparison = Comparison::new(108);
    for example in examples() {
        comparison.check(&example.bytes).unwrap();
        comparison.fill(&example.bytes).unwrap();
    }
}
