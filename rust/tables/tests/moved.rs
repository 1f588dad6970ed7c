//! Moved rows keep each agent's order, and their sources.

use tables::{checkable, moved, Build, Random, Row, Size, Table, BLANK, INITIAL};

#[test]
fn sources_go_with_their_rows() {
    let rows = [
        Row::write(0).at(0, 1),
        Row::write(1).at(1, 1),
        Row::read(1, 0).at(0, 1),
        Row::read(0, BLANK).at(1, 1),
    ];
    let table = Table::of_one_workgroup(2, &rows);
    let mut random = Random::new(1);
    let mut orders = std::collections::BTreeSet::new();
    for _ in 0..100 {
        let moved = moved(&mut random, &table);
        let of = |row: usize| moved.table.rows[moved.places[row]];
        assert_eq!(usize::from(of(2).source), moved.places[0]);
        assert_eq!((of(0).start, of(1).start), (0, 1));
        assert_eq!(of(3), rows[3]);
        let sources = moved.sources(&[INITIAL, INITIAL, 0, 1]);
        assert_eq!(usize::from(sources[moved.places[3]]), moved.places[1]);
        assert_eq!(sources[moved.places[0]], INITIAL);
        orders.insert(moved.places);
    }
    // Two rows of each of two agents.
    assert_eq!(orders.len(), 6);
}

#[test]
fn each_agent_keeps_its_order() {
    let mut random = Random::new(2);
    for _ in 0..200 {
        let table = checkable(&mut random, Size::of(2, 40));
        let moved = moved(&mut random, &table);
        for (row, x) in table.rows.iter().enumerate() {
            for (other, y) in table.rows.iter().enumerate() {
                let is_kept = moved.places[row] < moved.places[other];
                assert!(x.agent != y.agent || is_kept == (row < other));
            }
        }
    }
}
