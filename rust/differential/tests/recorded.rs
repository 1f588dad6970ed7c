//! Tables within the limits of 64 rows and 16 agents, of version 1 and
//! without control barriers, answer as they did before there was more: the
//! answers were recorded from the second implementation of that time.

use second::State;
use stramashly::{check_in, fill_in, Checker, Code, Packed};

/// Each table after its length, two bytes.
const TABLES: &[u8] = include_bytes!("recorded/64-rows.tables");
/// A line for each table: the answers to a check, a fill and a report, the
/// latter two `-` where they are the check's.
const ANSWERS: &str = include_str!("recorded/64-rows.answers");

const WORK_WORDS: usize = 8192;
const CYCLE_NUMBERS: usize = 256;
/// A cycle's edges began at place 64, and begin here now.
const CYCLE_EDGES: usize = 128;
const SOURCE_NUMBERS: usize = 128;

/// One table with its recorded answers.
struct Record {
    table: &'static [u8],
    check: &'static str,
    fill: &'static str,
    report: &'static str,
}

fn records() -> Vec<Record> {
    let mut rest = TABLES;
    let records = ANSWERS.lines().map(|line| {
        let length = usize::from(u16::from_be_bytes([rest[0], rest[1]]));
        let table = &rest[2..2 + length];
        rest = &rest[2 + length..];
        let mut answers = line.split("; ");
        let check = answers.next().unwrap();
        let mut or_check = || match answers.next().unwrap() {
            "-" => check,
            answer => answer,
        };
        Record {
            table,
            check,
            fill: or_check(),
            report: or_check(),
        }
    });
    let records: Vec<Record> = records.collect();
    assert!(rest.is_empty() && records.len() == 2000);
    records
}

fn listed(numbers: &[u16]) -> String {
    let words = numbers.iter().map(|number| format!(" {number}"));
    words.collect()
}

/// The answer as text; `numbers` is the cycle or the source buffer.
fn text(packed: Packed, numbers: &[u16]) -> String {
    let (a, b, c) = (packed.a(), packed.b(), packed.c());
    let count = usize::from(a);
    match packed.code().unwrap() {
        Code::RaceFree => "race-free".to_string(),
        Code::Race => format!("race {a} {b} {c}"),
        Code::Overwritten => format!("overwritten {a} {b} {c}"),
        Code::Cycle => {
            let rows = listed(&numbers[..count]);
            let edges = listed(&numbers[CYCLE_EDGES..][..count]);
            format!("cycle {count} rows{rows} edges{edges}")
        }
        Code::Refused => format!("refused {a} {b}"),
        Code::None => "none".to_string(),
        Code::Filled => format!("filled{}", listed(&numbers[..count])),
        code => panic!("{code:?}"),
    }
}

#[test]
fn the_library_answers_as_before() {
    let mut work = vec![0; WORK_WORDS];
    let mut cycle = vec![0; CYCLE_NUMBERS];
    let mut sources = vec![0; SOURCE_NUMBERS];
    let mut checker = Checker::new();
    for record in records() {
        let packed = check_in(false, record.table.into(), &mut work, &mut cycle);
        assert_eq!(text(packed, &cycle), record.check);
        let packed = fill_in(false, record.table.into(), &mut work, &mut sources);
        assert_eq!(text(packed, &sources), record.fill);
        let report = checker.report(record.table);
        assert_eq!(report.to_string(), record.report);
    }
}

#[test]
fn the_second_implementation_answers_as_before() {
    let mut state = State::new();
    for record in records() {
        let check = state.check(record.table, WORK_WORDS, CYCLE_NUMBERS);
        assert_eq!(check.to_string(), record.check);
        let fill = state.fill(record.table, WORK_WORDS, SOURCE_NUMBERS);
        assert_eq!(fill.to_string(), record.fill);
        let report = state.report(record.table, WORK_WORDS, CYCLE_NUMBERS);
        assert_eq!(report.to_string(), record.report);
    }
}

/// Each answer is recorded often enough to mean something.
#[test]
fn the_record_has_every_answer() {
    let records = records();
    let count = |test: &dyn Fn(&Record) -> bool| records.iter().filter(|x| test(x)).count();
    for word in ["race-free", "race ", "overwritten ", "cycle "] {
        assert!(
            count(&|record| record.check.starts_with(word)) > 80,
            "{word}"
        );
    }
    for word in ["filled", "none", "race "] {
        assert!(
            count(&|record| record.fill.starts_with(word)) > 80,
            "{word}"
        );
    }
    for number in [1, 2, 4, 5, 6, 7, 8, 9, 10] {
        let refused = format!("refused {number} ");
        assert!(count(&|record| record.check.starts_with(&refused)) > 10);
    }
    let rows = |record: &Record| record.table.get(6).is_some_and(|rows| *rows == 64);
    assert!(count(&rows) > 3);
}
