//! Words for those who mistype, and what a number means.

mod common;

use common::*;

#[test]
fn what_was_meant_is_told() {
    for (words, part) in [
        (&["chek", "x"][..], "did you mean check?"),
        (&["sumary", "x"], "did you mean summary?"),
        (&["check", "--jsno", "x"], "did you mean --json?"),
        (&["check", "--hexx", "x"], "did you mean --hex?"),
        (&["help", "explian"], "did you mean explain?"),
    ] {
        let answer = stramashly(words, b"");
        assert_eq!((answer.output.as_str(), answer.status), ("", Some(4)));
        assert!(
            answer.messages.contains(part),
            "{words:?}: {}",
            answer.messages
        );
    }
    let answer = stramashly(&["frobnicate"], b"");
    assert!(
        !answer.messages.contains("did you mean"),
        "{}",
        answer.messages
    );
}

#[test]
fn a_refusals_number_has_its_meaning() {
    for number in (1..=20).chain([40]) {
        let answer = stramashly(&["help", &number.to_string()], b"");
        assert_eq!(
            (answer.messages.as_str(), answer.status),
            ("", Some(0)),
            "{number}"
        );
        assert!(
            answer.output.starts_with(&format!("refused {number}, ")),
            "{number}"
        );
    }
    let nine = stramashly(&["help", "9"], b"").output;
    assert!(
        nine.contains("SOURCE: the row's source is no row"),
        "{nine}"
    );
    assert!(nine.contains("is the row."), "{nine}");
    let four = stramashly(&["help", "4"], b"").output;
    assert!(four.contains("of no row"), "{four}");
    assert_eq!(stramashly(&["help", "21"], b"").status, Some(4));
    assert_eq!(stramashly(&["help", "0"], b"").status, Some(4));
}

#[test]
fn which_moment_is_absent_is_told() {
    let of_p = |words: &[&str]| {
        let mut all = vec![words[0], "--hex", "-"];
        all.extend(&words[1..]);
        stramashly(&all, P.as_bytes())
    };
    for (words, part) in [
        (
            &["derive", "1.after", "2.after"][..],
            "the first moment, 5 (1.after)",
        ),
        (
            &["derive", "1.before", "9.at"],
            "the second moment, 28 (9.at), isn't there: the last row is 3",
        ),
        (&["derive", "7.at", "9.at"], "neither moment is there"),
        (
            &["accepts", "3", "3", "program-order"],
            "both moments are 3 (1.before)",
        ),
    ] {
        let answer = of_p(words);
        assert_eq!(
            (answer.output.as_str(), answer.status),
            ("refused 12 0\n", Some(3))
        );
        assert!(
            answer.messages.contains(part),
            "{words:?}: {}",
            answer.messages
        );
    }
}
