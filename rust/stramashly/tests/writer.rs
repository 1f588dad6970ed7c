//! Tables written from values and stepped through: examples, refusals and
//! buffers.

mod common;

use common::example;
use stramashly::*;

/// An agent's write of four bytes and its read of that.
fn two_rows() -> TableWriter {
    let write = Row {
        kind: 1,
        length: 4,
        source: INITIAL,
        ..Row::default()
    };
    let read = Row {
        length: 4,
        source: 0,
        ..Row::default()
    };
    let mut writer = TableWriter::new(1);
    writer.place([0, 0, 0, 0]).row(write).row(read);
    writer
}

#[test]
fn a_table_is_read_and_written_as_it_was() {
    for name in [
        "p",
        "leak",
        "p-initial",
        "fill",
        "empty",
        "counted",
        "upload",
    ] {
        let table = example(name);
        let values = TableWriter::read(&table).unwrap();
        assert_eq!(values.write(), Ok(table), "{name}");
    }
    let refusal = TableWriter::read(&example("too-long")).unwrap_err();
    assert_eq!(refusal, Refusal { number: 7, row: 1 });
}

/// The front of the lent parts has the values, the rest is kept; a short part is
/// refusal 11, before the table is looked at, and a refusal writes nothing.
#[test]
fn lent_parts_hold_what_the_header_says() {
    let table = example("upload");
    let mut places = [7; READ_PLACES + 1];
    let mut rows = [7; READ_ROWS + 1];
    let mut dependencies = [7; READ_DEPENDENCIES + 1];
    let packed = read_in(&table, &mut places, &mut rows, &mut dependencies);
    assert_eq!(packed, Packed::new(Code::Read, 3 * 256 + 3, 5, 4));
    assert_eq!(places[..12], [0, 0, 0, 1, 0, 0, 0, 2, 0, 0, 0, 0]);
    assert_eq!(rows[..80], table[32..112]);
    assert_eq!(dependencies[..8], [0, 1, 1, 2, 2, 3, 3, 4]);
    assert!(places[12..].iter().all(|number| *number == 7));
    assert!(rows[80..].iter().all(|byte| *byte == 7));
    assert!(dependencies[8..].iter().all(|number| *number == 7));
}

#[test]
fn a_refused_reading_writes_nothing() {
    let (mut places, mut rows) = ([7; READ_PLACES], [7; READ_ROWS]);
    let mut dependencies = [7; READ_DEPENDENCIES];
    let short = Packed::new(Code::Refused, 11, 0, 0);
    for table in [example("upload"), example("too-long"), vec![]] {
        let (places, rows, ends) = (&mut places, &mut rows, &mut dependencies);
        assert_eq!(read_in(&table, &mut places[1..], rows, ends), short);
        assert_eq!(read_in(&table, places, &mut rows[1..], ends), short);
        assert_eq!(read_in(&table, places, rows, &mut ends[1..]), short);
    }
    for (table, number, row) in [(example("too-long"), 7, 1), (vec![0; 8], 2, 0)] {
        let packed = read_in(&table, &mut places, &mut rows, &mut dependencies);
        assert_eq!(packed, Packed::new(Code::Refused, number, row, 0));
    }
    assert_eq!((places, rows), ([7; READ_PLACES], [7; READ_ROWS]));
    assert_eq!(dependencies, [7; READ_DEPENDENCIES]);
}

#[test]
fn each_refusal_before_the_rows() {
    let refused = |number| Err(Refusal { number, row: 0 });
    for version in [0, 4, 255] {
        assert_eq!(TableWriter::new(version).write(), refused(2));
    }
    for (places, rows) in [(33, 0), (256, 0), (0, 129), (0, 256)] {
        let mut writer = TableWriter::new(1);
        (0..places).for_each(|_| _ = writer.place([0; 4]));
        (0..rows).for_each(|_| _ = writer.row(Row::default()));
        assert_eq!(writer.write(), refused(3));
    }
    for (version, number) in [(1, 1), (2, 2), (3, 3), (3, 65535)] {
        let mut writer = TableWriter::new(version);
        writer.place([0, 0, 0, number]);
        assert_eq!(writer.write(), refused(16));
    }
    for (version, count) in [(1, 1), (2, 1), (3, 65), (3, 65_536)] {
        let mut writer = TableWriter::new(version);
        (0..count).for_each(|_| _ = writer.depend(0, 0));
        assert_eq!(writer.write(), refused(17));
    }
    let mut writer = TableWriter::new(3);
    assert_eq!(writer.depend(0, 0).write(), refused(18));
}

#[test]
fn rows_are_refused_as_in_a_fill() {
    let mut writer = two_rows();
    let blank = Row {
        length: 4,
        source: BLANK,
        ..Row::default()
    };
    assert!(writer.row(blank).write().is_ok());
    let long = Row {
        length: 17,
        ..blank
    };
    let refusal = writer.row(long).write().unwrap_err();
    assert_eq!(refusal, Refusal { number: 7, row: 3 });
}

#[test]
fn a_short_buffer_is_refused_and_left_alone() {
    let writer = two_rows();
    let table = writer.write().unwrap();
    for room in 0..table.len() + 20 {
        let mut out = vec![0xA5; room];
        let answer = writer.write_in(&mut out).map(<[u8]>::to_vec);
        let begin = if room < table.len() {
            assert_eq!(answer, Err(Refusal { number: 13, row: 0 }));
            0
        } else {
            assert_eq!(answer.as_deref(), Ok(&table[..]));
            assert_eq!(out[..table.len()], table);
            table.len()
        };
        assert!(out[begin..].iter().all(|byte| *byte == 0xA5), "{room}");
    }
}

#[test]
fn rows_come_once_and_then_the_end() {
    let table = example("p");
    let mut rows = Rows::open(&table).unwrap();
    assert_eq!(rows.len(), 4);
    let bytes: Vec<u8> = rows.by_ref().flat_map(Row::bytes).collect();
    assert_eq!(bytes, table[table.len() - 64..]);
    for _ in 0..70_000 {
        assert_eq!(rows.next(), None);
    }
    assert_eq!((rows.len(), rows.table()), (0, &table[..]));
}

#[test]
fn what_a_fill_refuses_is_not_opened() {
    let refusal = Rows::open(&example("too-long")).unwrap_err();
    assert_eq!(refusal, Refusal { number: 7, row: 1 });
    assert_eq!(Rows::open(&[]).unwrap_err().to_string(), "refused 1 0");
    assert!(Rows::open(&example("fill")).is_ok());
}

/// Each example that is refused, and what is refused before a row is read: no
/// place gives a row, and nothing is written.
#[test]
fn what_a_fill_refuses_gives_no_row() {
    let nine = vec![0, 0, 0, 0, 9, 0, 1, 0];
    let names = ["too-long", "version-4", "odd-atomic", "host-atomic"];
    let refused = names
        .map(example)
        .into_iter()
        .chain([nine, vec![], vec![0; 7]]);
    for table in refused {
        let refusal = Rows::open(&table).unwrap_err();
        let expected = Packed::new(Code::Refused, refusal.number, refusal.row, 0);
        for at in (0..300).chain([65534, 65535]) {
            let mut row = [0xA5; ROW_BYTES + 1];
            assert_eq!(row_in(&table, at, &mut row), expected, "{at}");
            assert_eq!(row, [0xA5; ROW_BYTES + 1]);
        }
        let short = Packed::new(Code::Refused, 11, 0, 0);
        assert_eq!(row_in(&table, 0, &mut [0; ROW_BYTES - 1]), short);
    }
}

#[test]
fn parts_that_are_no_whole_ones_count_for_nothing() {
    let mut out = [0; 100];
    let mut written = |places: &[u16], rows: &[u8], dependencies: &[u16]| {
        write_in(3, places, rows, dependencies, &mut out)
    };
    let empty = Packed::new(Code::Written, 10, 0, 0);
    assert_eq!(written(&[], &[], &[]), empty);
    assert_eq!(written(&[9; 3], &[9; 15], &[9]), empty);
    assert_eq!(written(&[0; 4], &[], &[]).a(), 18);
}
