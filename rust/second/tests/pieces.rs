//! Tables in two pieces, from the words of the rules.

use second::{joined, Chains, CheckAnswer, FillAnswer, State};
use second::{CYCLE_NUMBERS, SOURCE_NUMBERS, WORK_WORDS};

/// Table P: data written, a flag released and acquired, the data read.
const P: [u8; 84] = [
    0, 0, 0, 80, 1, 2, 4, 0, 0, 0, 0, 0, 0, 0, 0, 0, 0, 0, 0, 1, //
    1, 0, 0, 0, 0, 1, 0, 4, 0, 0, 0, 1, 255, 255, 0, 0, //
    3, 0, 2, 2, 1, 3, 0, 4, 0, 4, 0, 2, 255, 255, 0, 1, //
    2, 1, 1, 2, 1, 5, 0, 4, 0, 4, 0, 2, 0, 1, 0, 0, //
    0, 1, 0, 0, 0, 1, 0, 4, 0, 0, 0, 1, 0, 0, 0, 0,
];

/// P's first two rows as a table, and its other two.
fn cut() -> ([u8; 52], [u8; 32]) {
    let mut first = [0; 52];
    first.copy_from_slice(&P[..52]);
    first[3] = 48;
    first[6] = 2;
    let mut second = [0; 32];
    second.copy_from_slice(&P[52..]);
    (first, second)
}

fn check(first: &[u8], second: &[u8]) -> String {
    let pieces = [first, second];
    let answer = State::new().check_pieces(Chains::Off, pieces, WORK_WORDS, CYCLE_NUMBERS);
    answer.to_string()
}

#[test]
fn joined_pieces_are_the_table() {
    let (first, second) = cut();
    assert_eq!(joined([&first, &second]), Ok(P.to_vec()));
    assert_eq!(joined([&P, &[]]), Ok(P.to_vec()));
    assert_eq!(check(&first, &second), "race-free");
    // Sources are counted over both pieces, and so are rows that are refused.
    let mut blank = second;
    blank[28..30].copy_from_slice(&[255, 254]);
    assert_eq!(check(&first, &blank), "refused 9 3");
    let pieces = [&first[..], &blank];
    let answer = State::new().fill_pieces(Chains::Off, pieces, WORK_WORDS, SOURCE_NUMBERS);
    assert!(matches!(answer, FillAnswer::Filled(_)));
    assert_eq!(answer.to_string(), "filled 65535 65535 1 0");
}

#[test]
fn refusals_come_in_their_order() {
    let (first, second) = cut();
    assert_eq!(check(&first, &second[..31]), "refused 40 0");
    assert_eq!(check(&first, &[0; 127 * 16]), "refused 3 0");
    assert_eq!(check(&first, &[0; 127 * 16 + 1]), "refused 40 0");
    assert_eq!(check(&first, &[0; 126 * 16]), "refused 7 2");
    assert_eq!(check(&first[..7], &second[..31]), "refused 1 0");
    assert_eq!(check(&P[..52], &second[..31]), "refused 4 0");
    let pieces = [&first[..7], &second[..31]];
    let short = State::new().check_pieces(Chains::Off, pieces, WORK_WORDS - 1, CYCLE_NUMBERS);
    assert_eq!(short, CheckAnswer::Refused { number: 11, row: 0 });
}

#[test]
fn dependencies_name_rows_of_either_piece() {
    // A shader agent, no rows, and a dependency from row 0 to row 1.
    let first = [
        0, 0, 0, 18, 3, 1, 0, 0, 0, 0, 0, 0, 0, 0, 0, 0, 0, 1, 0, 0, 0, 1,
    ];
    let row = [1, 0, 0, 0, 0, 0, 0, 4, 0, 0, 0, 0, 255, 255, 0, 0];
    let rows = [row, row].concat();
    assert_eq!(check(&first, &rows), "race-free");
    assert_eq!(check(&first, &row), "refused 18 0");
    let joined = joined([&first, &rows]).unwrap();
    // The dependencies come after all rows.
    assert_eq!(joined[joined.len() - 6..], first[16..]);
    let mut state = State::new();
    assert_eq!(state.row_of_pieces([&first, &rows], 1), Some(&rows[16..]));
    assert_eq!(state.row_of_pieces([&first, &row], 0), None);
}

#[test]
fn rows_are_shown_from_their_piece() {
    let (first, second) = cut();
    let mut state = State::new();
    let mut shown = |row| state.row_of_pieces([&first, &second], row);
    for row in 0..4 {
        assert_eq!(shown(row), Some(&P[20 + 16 * row..][..16]), "{row}");
    }
    assert_eq!(shown(4), None);
    assert_eq!(state.row_of_pieces([&first, &second[..31]], 0), None);
}
