//! Tables in two pieces: `--then`, and lines of a batch.

mod common;

use common::*;
use std::fs;

fn digits() -> String {
    P.split_whitespace().collect()
}

/// P's first rows as a table, and its other rows, in digits.
fn cut(rows: usize) -> [String; 2] {
    let digits = digits();
    let at = 40 + 32 * rows;
    let following = 16 + 16 * rows;
    let first = format!("{following:08x}0102{rows:02x}00{}", &digits[16..at]);
    [first, digits[at..].to_string()]
}

fn file(name: &str, text: &str) -> String {
    let path = scratch().join(name);
    fs::write(&path, text).unwrap();
    path.to_str().unwrap().to_string()
}

fn answered(words: &[&str], input: &str) -> (String, Option<i32>) {
    let answer = stramashly(words, input.as_bytes());
    assert_eq!(answer.messages, "", "{words:?}");
    (answer.output, answer.status)
}

fn dashed(piece: &str) -> &str {
    if piece.is_empty() {
        "-"
    } else {
        piece
    }
}

#[test]
fn every_cut_of_p() {
    for rows in 0..=4 {
        let [first, second] = cut(rows);
        let name = |piece| format!("pieces-{rows}-{piece}.hex");
        let a = file(&name("first"), &first);
        let b = file(&name("second"), &second);
        for (words, output) in [
            (&["check"][..], "race-free\n"),
            (&["fill"], "filled 65535 65535 1 0\n"),
            (&["report"], "report 2 1 1 0 0.0\n"),
        ] {
            let words = [words, &["--hex", &a, "--then", &b]].concat();
            assert_eq!(answered(&words, ""), (output.to_string(), Some(0)));
        }
        let derive = ["derive", "--hex", "--then", &b, &a, "3", "8"];
        let chain = "chain 1 1028 519 1544\n".to_string();
        assert_eq!(answered(&derive, ""), (chain, Some(0)));
        let accepts = [
            "accepts", "--hex", "--then", "-", &a, "3", "8", "1", "1028", "519", "1544",
        ];
        assert_eq!(
            answered(&accepts, &second),
            ("accepted\n".to_string(), Some(0))
        );
    }
}

#[test]
fn lines_of_a_batch() {
    for rows in 0..=4 {
        let [first, second] = cut(rows);
        let pieces = format!("{first} {}", dashed(&second));
        let rows = digits();
        let shown: Vec<String> = (0..4)
            .map(|row| rows[40 + 32 * row..][..32].to_uppercase())
            .collect();
        let lines = format!(
            "check2 {pieces}\nfill2 {pieces}\nreport2 {pieces}\nderive2 {pieces} 3 8\n\
             accepts2 {pieces} 3 8 1 1028 519 1544\naccepts2 {pieces} 1 4 program-order\n\
             row2 {pieces} 0\nrow2 {pieces} 1\nrow2 {pieces} 2\nrow2 {pieces} 3\nrow2 {pieces} 4\n"
        );
        let answers = format!(
            "race-free\nfilled 65535 65535 1 0\nreport 2 1 1 0 0.0\nchain 1 1028 519 1544\n\
             accepted\naccepted\n{}\nnone\n",
            shown.join("\n")
        );
        assert_eq!(answered(&["batch"], &lines), (answers.clone(), Some(0)));
        assert_eq!(answered(&["batch", "-j", "2"], &lines), (answers, Some(0)));
    }
}

#[test]
fn refusals_and_objects() {
    let [first, second] = cut(2);
    let line = format!(
        "check2 {first} {}\ncheck2 - {second}\ncheck2 {first} {}\nrow2 {first} {second} 9\n\
         row2 {first} {second} 3\nrow2 {first} 00 0\n",
        &second[2..],
        "0".repeat(32 * 127),
    );
    let answers = format!(
        "refused 40 0\nrefused 1 0\nrefused 3 0\nnone\n{}\nnone\n",
        second[32..].to_uppercase()
    );
    assert_eq!(answered(&["batch"], &line), (answers, Some(0)));
    let line = format!("row2 {first} {second} 2\nrow2 {first} {second} 4\n");
    let bytes = second[..32].to_uppercase();
    let objects =
        format!("{{\"verdict\":\"row\",\"bytes\":\"{bytes}\"}}\n{{\"verdict\":\"none\"}}\n");
    assert_eq!(answered(&["batch", "--json"], &line), (objects, Some(0)));
}

/// However long a second piece is, its remainder decides between 40 and 3.
#[test]
fn long_second_pieces() {
    let [first, _] = cut(2);
    let a = file("pieces-long-first.hex", &first);
    for (bytes, output) in [
        (16 * 20_000, "refused 3 0\n"),
        (16 * 20_000 + 1, "refused 40 0\n"),
        (16 * 20_000 + 15, "refused 40 0\n"),
    ] {
        let long = "00".repeat(bytes);
        let words = ["check", "--hex", &a, "--then", "-"];
        assert_eq!(answered(&words, &long), (output.to_string(), Some(3)));
        let line = format!("check2 {first} {long}");
        assert_eq!(
            answered(&["batch"], &line),
            (output.to_string(), Some(0)),
            "{bytes}"
        );
        let raw = scratch().join(format!("pieces-{bytes}.rows"));
        fs::write(&raw, vec![0; bytes]).unwrap();
        let table: Vec<u8> = (0..first.len() / 2)
            .map(|place| u8::from_str_radix(&first[2 * place..][..2], 16).unwrap())
            .collect();
        let path = scratch().join(format!("pieces-{bytes}.table"));
        fs::write(&path, table).unwrap();
        let words = [
            "check",
            path.to_str().unwrap(),
            "--then",
            raw.to_str().unwrap(),
        ];
        assert_eq!(answered(&words, ""), (output.to_string(), Some(3)));
    }
}

#[test]
fn a_second_piece_that_cannot_be_read_is_told() {
    let [first, _] = cut(2);
    let a = file("pieces-alone.hex", &first);
    let missing = scratch().join("pieces-missing.rows");
    let missing = missing.to_str().unwrap();
    let answer = stramashly(&["check", "--hex", &a, "--then", missing], b"");
    assert_eq!(answer.status, Some(4));
    assert_eq!(answer.output, "");
    assert!(answer.messages.contains(missing), "{}", answer.messages);
}

/// The first piece may be a text, whose labels and places are told of its own
/// rows; the rows of the second have none.
#[test]
fn rows_are_added_to_a_text() {
    let text = "stramashly 1\nagent a0 = 0.0.0\nagent a1 = 0.0.1\nref v1 = 1 Uniform\n\n\
        w: a0 plain-write v1 0..4 non-private @ s.comp:3\n";
    let first = file("pieces-first.txt", text);
    let second = scratch().join("pieces-second.rows");
    fs::write(
        &second,
        [1, 1, 0, 0, 0, 1, 0, 4, 0, 0, 0, 1, 255, 255, 0, 0],
    )
    .unwrap();
    let second = second.to_str().unwrap();
    let race = ("race 0 1 0\n".to_string(), Some(1));
    assert_eq!(answered(&["check", &first, "--then", second], ""), race);
    let object = "{\"verdict\":\"race\",\"first\":0,\"second\":1,\"byte\":0,\
        \"places\":[{\"row\":0,\"label\":\"w\",\"at\":\"s.comp:3\"}]}\n";
    assert_eq!(
        answered(&["check", "--json", &first, "--then", second], ""),
        (object.to_string(), Some(1))
    );
}

/// A race found in two pieces is explained and drawn as in one.
#[test]
fn two_pieces_are_explained_and_drawn() {
    let leak = fs::read(format!(
        "{}/../../examples/leak.table",
        env!("CARGO_MANIFEST_DIR")
    ));
    let leak = tables::hex(&leak.unwrap());
    // Two agents and the first three of six rows.
    let at = 2 * (8 + 12 + 48);
    let first = format!("{:08x}01020300{}", 4 + 12 + 48, &leak[16..at]);
    let (a, b) = (file("leak-1.hex", &first), file("leak-2.hex", &leak[at..]));
    let whole = file("leak-whole.hex", &leak);
    for command in [
        &["explain"][..],
        &["explain", "--all"],
        &["explain", "--json"],
        &["explain", "--html"],
        &["draw"],
    ] {
        let of_pieces = [command, &["--hex", &a, "--then", &b]].concat();
        let of_whole = [command, &["--hex", &whole]].concat();
        assert_eq!(answered(&of_pieces, ""), answered(&of_whole, ""));
    }
    let odd = file("leak-odd.hex", "00");
    let answer = stramashly(&["explain", "--hex", &a, "--then", &odd], b"");
    assert_eq!((answer.output.as_str(), answer.status), ("", Some(3)));
    assert!(
        answer.messages.contains("refused 40 0"),
        "{}",
        answer.messages
    );
}
