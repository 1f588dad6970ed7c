//! Every table that a fill takes can be said, in either form, and comes back
//! byte for byte; what it doesn't take isn't said.

use mend::{Notes, Run};
use stramashly::{Checker, FillAnswer};
use tables::{chained, chained_fillable, checkable, clean, damaged, damaged_hosted, fillable};
use tables::{examples, hosted, hosted_fillable, litmus, moved, Build, Random, Row, Size};
use text::{admission, assemble, form, read, remade, write, write_lines, Form, Refusal};

/// Both forms of a table, if a fill takes it.
fn forms(table: &[u8]) -> Result<[(Form, String); 2], Refusal> {
    let notes = Notes::default();
    Ok([
        (Form::Text, write(table, &notes)?),
        (Form::Lines, write_lines(table, &notes)?),
    ])
}

/// Whether the table was said, and each form of it came back as it was.
fn comes_back(table: &[u8]) -> bool {
    let forms = match forms(table) {
        Ok(forms) => forms,
        Err(refusal) => {
            let mut checker = Checker::new();
            let Refusal { number, row } = refusal;
            assert_eq!(checker.fill(table), FillAnswer::Refused { number, row });
            assert_eq!(write_lines(table, &Notes::default()), Err(refusal));
            return false;
        }
    };
    for (kind, said) in forms {
        assert_eq!(form(said.as_bytes()), Some(kind));
        let draft = read(kind, said.as_bytes());
        let draft = draft.unwrap_or_else(|trouble| panic!("{trouble}\n{said}"));
        assert_eq!(draft.assemble().as_deref(), Ok(table), "{said}");
        assert_eq!(draft.refusal(), None);
        // The notes come back too: what was written is written again.
        let again = match kind {
            Form::Text => write(table, &draft.notes),
            Form::Lines => write_lines(table, &draft.notes),
        };
        assert_eq!(again.as_deref(), Ok(&*said));
    }
    true
}

#[test]
fn generated_tables_come_back() {
    let mut random = Random::new(2026);
    let mut said = [0; 10];
    for _ in 0..350 {
        for most in [6, 20] {
            let size = Size { least: 1, most };
            let tables = [
                checkable(&mut random, size).bytes(),
                clean(&mut random, size).bytes(),
                fillable(&mut random, size).bytes(),
                hosted(&mut random, size).bytes(),
                hosted_fillable(&mut random, size).bytes(),
                chained(&mut random, size).bytes(),
                chained_fillable(&mut random, size).bytes(),
                damaged(&mut random, size),
                damaged_hosted(&mut random, size),
            ];
            for (generator, table) in tables.iter().enumerate() {
                said[generator] += usize::from(comes_back(table));
            }
            let table = checkable(&mut random, size);
            let moved = moved(&mut random, &table);
            said[9] += usize::from(comes_back(&moved.table.bytes()));
        }
    }
    // Damage leaves few tables whole.
    for (generator, count) in said.iter().enumerate() {
        let least = if matches!(generator, 7 | 8) { 5 } else { 600 };
        assert!(*count >= least, "{said:?}");
    }
}

#[test]
fn large_tables_come_back() {
    let mut random = Random::new(2027);
    let size = Size::of(120, 128);
    for _ in 0..10 {
        assert!(comes_back(&clean(&mut random, size).bytes()));
        comes_back(&hosted_fillable(&mut random, size).bytes());
        comes_back(&fillable(&mut random, size).bytes());
    }
}

#[test]
fn examples_and_litmus_tests_come_back() {
    let said = examples()
        .into_iter()
        .filter(|example| comes_back(&example.bytes));
    assert!(said.count() > 30);
    for litmus in litmus() {
        let is_refused = litmus.answer.starts_with("refused");
        assert_eq!(comes_back(&litmus.bytes), !is_refused, "{}", litmus.name);
    }
}

/// The parts of any table make its bytes, or get the fill's refusal.
#[test]
fn parts_are_assembled_as_a_fill_admits_them() {
    let mut random = Random::new(2028);
    let size = Size::of(1, 9);
    let mut refused = 0;
    for round in 0..3000 {
        let table = match round % 3 {
            0 => damaged(&mut random, size),
            1 => damaged_hosted(&mut random, size),
            _ => fillable(&mut random, size).bytes(),
        };
        let made_anew = remade(&table);
        assert_eq!(made_anew.as_ref().err().copied(), admission(&table));
        assert!(made_anew.is_err() || made_anew.as_ref() == Ok(&table));
        // What isn't whole has no parts.
        let door = admission(&table).is_some_and(|refusal| refusal.number < 5);
        if door {
            continue;
        }
        let run = Run::of(&table);
        let places = run.agents.iter().zip(&run.sorts);
        let places = places
            .map(|([family, workgroup, subgroup], sort)| [*family, *workgroup, *subgroup, *sort]);
        let places: Vec<[u16; 4]> = places.collect();
        let made = assemble(table[4], &places, &run.rows, &run.dependencies);
        match admission(&table) {
            Some(refusal) => {
                assert_eq!(made, Err(refusal));
                refused += 1;
            }
            None => assert_eq!(made, Ok(table)),
        }
    }
    assert!(refused > 100, "{refused}");
}

#[test]
fn what_no_version_has_is_refused() {
    let refused = |number| Err(Refusal { number, row: 0 });
    assert_eq!(assemble(0, &[], &[], &[]), refused(2));
    assert_eq!(assemble(4, &[], &[], &[]), refused(2));
    assert_eq!(assemble(1, &[[0; 4]; 33], &[], &[]), refused(3));
    let row = Run::of(&tables::Table::of_one_workgroup(1, &[Row::write(0)]).bytes()).rows[0];
    assert_eq!(assemble(1, &[[0; 4]], &[row; 129], &[]), refused(3));
    assert_eq!(assemble(1, &[[0, 0, 0, 1]], &[], &[]), refused(16));
    assert_eq!(assemble(3, &[[0, 0, 0, 3]], &[], &[]), refused(16));
    assert_eq!(assemble(2, &[[0; 4]], &[row], &[[0, 0]]), refused(17));
    assert_eq!(assemble(3, &[[0; 4]], &[row], &[[0, 0]; 65]), refused(17));
    assert_eq!(assemble(3, &[[0; 4]], &[row], &[[0, 1]]), refused(18));
    assert!(assemble(3, &[[0; 4]], &[row], &[[0, 0]; 64]).is_ok());
}
