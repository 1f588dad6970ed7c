//! The writer and the stepping reader: every refusal, buffers of every length
//! around the table's, and round trips both ways.

use differential::{readable, Comparison};
use second::table::Row;
use second::{RowsAnswer, Values, WriteAnswer};
use std::collections::BTreeMap;
use stramashly::MAX_TABLE_BYTES;
use tables::{
    checkable, damaged, damaged_hosted, examples, fillable, hosted, hosted_fillable, Random, Size,
};

const SMALL: Size = Size::of(1, 10);

/// How often each answer was given; 0 stands for a table.
#[derive(Default)]
struct Numbers(BTreeMap<u8, usize>);

impl Numbers {
    fn add(&mut self, answer: &WriteAnswer) {
        let number = match answer {
            WriteAnswer::Refused { number, .. } => *number,
            WriteAnswer::Written(_) => 0,
        };
        *self.0.entry(number).or_default() += 1;
    }

    fn assert_each(&self, numbers: &[u8], least: usize) {
        for number in numbers {
            let count = self.0.get(number).copied().unwrap_or(0);
            assert!(count >= least, "{number}: {:?}", self.0);
        }
    }
}

fn good(random: &mut Random, size: Size) -> Vec<u8> {
    match random.below(4) {
        0 => checkable(random, size).bytes(),
        1 => fillable(random, size).bytes(),
        2 => hosted(random, size).bytes(),
        _ => hosted_fillable(random, size).bytes(),
    }
}

/// Writing what was read from a table that a fill accepts gives its bytes;
/// reading what was written gives the values.
#[test]
fn what_is_read_is_written_again() {
    let mut random = Random::new(1001);
    let mut comparison = Comparison::new(1001);
    let mut written = 0;
    for count in 0..4000 {
        let size = if count % 80 == 0 {
            Size::LARGEST
        } else {
            SMALL
        };
        let table = good(&mut random, size);
        let values = Values::of(&table);
        let answer = comparison.write(&values, MAX_TABLE_BYTES).unwrap();
        if let RowsAnswer::Rows(rows) = comparison.step_through(&table).unwrap() {
            assert_eq!(answer, WriteAnswer::Written(table.clone()));
            assert_eq!(rows.len(), values.rows.len());
            written += 1;
        } else {
            assert!(matches!(answer, WriteAnswer::Refused { .. }));
        }
    }
    assert!(written > 3000, "{written}");
}

/// Values of damaged tables are refused as the tables are, where these are
/// refused for nothing that values don't have.
#[test]
fn damaged_values() {
    let mut random = Random::new(1002);
    let mut comparison = Comparison::new(1002);
    let mut numbers = Numbers::default();
    for count in 0..12_000 {
        let table = match count % 2 {
            0 => damaged(&mut random, SMALL),
            _ => damaged_hosted(&mut random, SMALL),
        };
        let stepped = comparison.step_through(&table).unwrap();
        if !readable(&table) {
            continue;
        }
        let values = Values::of(&table);
        let answer = comparison.write(&values, MAX_TABLE_BYTES).unwrap();
        numbers.add(&answer);
        match (stepped, answer) {
            (RowsAnswer::Rows(_), answer) => assert_eq!(answer, WriteAnswer::Written(table)),
            (RowsAnswer::Refused { number, row }, answer) if number > 4 => {
                assert_eq!(answer, WriteAnswer::Refused { number, row });
            }
            _ => (),
        }
    }
    let all = [5, 6, 7, 8, 9, 10, 14, 15, 16, 17, 18, 19, 20];
    numbers.assert_each(&all, 20);
}

/// Values that no table has: other versions, too many of each, and host
/// agents and dependencies where there are none.
#[test]
fn values_without_a_table() {
    let mut random = Random::new(1003);
    let mut comparison = Comparison::new(1003);
    let mut numbers = Numbers::default();
    for _ in 0..6000 {
        let mut values = Values::of(&good(&mut random, SMALL));
        for _ in 0..random.between(1, 2) {
            match random.below(6) {
                0 => values.version = random.pick(&[0, 1, 2, 3, 4, 5, 255]),
                1 => {
                    let count = random.pick(&[31, 32, 33, 64, 255, 256, 257, 300]);
                    values.places.resize(count, [0, 0, 0, 0]);
                }
                2 => {
                    let count = random.pick(&[127, 128, 129, 255, 256, 300]);
                    let row = values.rows.first().copied().unwrap_or_default();
                    values.rows.resize(count, row);
                }
                3 if !values.places.is_empty() => {
                    let place = random.below(values.places.len());
                    values.places[place][3] = random.pick(&[0, 1, 2, 3, 256, 65535]);
                }
                4 => {
                    let count = random.pick(&[0, 1, 63, 64, 65, 256, 65535, 65536, 65600]);
                    values.dependencies.resize(count, [0, 0]);
                }
                _ => {
                    let row = values.rows.len() as u16;
                    let pair = random.pick(&[[0, row], [row, 0], [65535, 65534]]);
                    values.dependencies.push(pair);
                }
            }
        }
        let room = random.pick(&[MAX_TABLE_BYTES, MAX_TABLE_BYTES, 0, 8]);
        numbers.add(&comparison.write(&values, room).unwrap());
    }
    numbers.assert_each(&[0, 2, 3, 13, 16, 17, 18], 100);
}

/// Refusal 13 exactly where the buffer is shorter than the table, and only
/// where nothing else is refused.
#[test]
fn buffers_of_every_length() {
    let mut random = Random::new(1004);
    let mut comparison = Comparison::new(1004);
    let short = WriteAnswer::Refused { number: 13, row: 0 };
    let mut tables: Vec<Vec<u8>> = (0..12).map(|_| good(&mut random, SMALL)).collect();
    tables.extend(examples().into_iter().map(|example| example.bytes));
    for table in tables.iter().filter(|table| readable(table)) {
        let values = Values::of(table);
        let WriteAnswer::Written(table) = comparison.write(&values, MAX_TABLE_BYTES).unwrap()
        else {
            let refused = comparison.write(&values, MAX_TABLE_BYTES).unwrap();
            for room in [0, 7, table.len() - 1, table.len(), table.len() + 1] {
                assert_eq!(comparison.write(&values, room).unwrap(), refused);
            }
            continue;
        };
        for room in (0..table.len() + 40).chain([3000, 70_000]) {
            let answer = comparison.write(&values, room).unwrap();
            assert_eq!(answer == short, room < table.len(), "{room}");
        }
    }
}

/// Rows of any values at all.
#[test]
fn noise() {
    let mut random = Random::new(1005);
    let mut comparison = Comparison::new(1005);
    for _ in 0..4000 {
        let count = random.below(6);
        let row = |random: &mut Random| {
            let word = random.word().to_be_bytes();
            let other = random.word().to_be_bytes();
            let bytes: Vec<u8> = word.into_iter().chain(other).collect();
            Row::from_bytes(&bytes)
        };
        let values = Values {
            version: random.pick(&[1, 2, 3]),
            places: vec![[0, 0, 0, 0]; random.below(4)],
            rows: (0..count).map(|_| row(&mut random)).collect(),
            dependencies: Vec::new(),
        };
        comparison.write(&values, MAX_TABLE_BYTES).unwrap();
        let bytes: Vec<u8> = (0..random.below(80)).map(|_| random.word() as u8).collect();
        comparison.step_through(&bytes).unwrap();
    }
}
