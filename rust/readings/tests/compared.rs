//! The definition pages and the second implementation, asked the same: every
//! answer and every refusal occurs, and what each lent buffer holds is compared.

use readings::{case, fixed, with_room, Readers};
use std::collections::BTreeMap;

/// Generated tables, beside the fixed ones.
const TABLES: u64 = 2400;

/// How often each function gave each code, refusals by their numbers.
#[derive(Default)]
struct Tally {
    codes: BTreeMap<(&'static str, u64), usize>,
    refusals: BTreeMap<(&'static str, u64), usize>,
}

impl Tally {
    fn count(&mut self, function: &'static str, answer: &str) {
        let Ok(answer) = answer.parse::<u64>() else {
            return;
        };
        let (code, a) = (answer >> 48, answer >> 32 & 0xFFFF);
        let (counts, number) = match code {
            4 => (&mut self.refusals, a),
            _ => (&mut self.codes, code),
        };
        *counts.entry((function, number)).or_default() += 1;
    }

    fn code(&self, function: &'static str, code: u64) -> usize {
        self.codes.get(&(function, code)).copied().unwrap_or(0)
    }

    fn refusal(&self, function: &'static str, number: u64) -> usize {
        self.refusals.get(&(function, number)).copied().unwrap_or(0)
    }
}

fn compare_all() -> Result<Tally, String> {
    let mut readers = Readers::new();
    let mut tally = Tally::default();
    let generated = (0..TABLES).map(|number| case(5 << 32 | number));
    for case in fixed().into_iter().chain(generated) {
        readers.forget();
        for question in &case.questions {
            if let Some(told) = readers.compare(question)? {
                tally.count(question.function, &told.answer);
            }
        }
    }
    Ok(tally)
}

/// The codes that each function gives.
const CODES: [(&str, &[u64]); 17] = [
    ("stramashly_check", &[0, 1, 2, 3]),
    ("stramashly_check_by_flags", &[0, 1]),
    ("stramashly_check2", &[0, 1, 2, 3]),
    ("stramashly_fill", &[1, 5, 6]),
    ("stramashly_fill_by_flags", &[1, 6]),
    ("stramashly_fill2", &[1, 5, 6]),
    ("stramashly_report", &[2, 3, 7, 18]),
    ("stramashly_report2", &[2, 3, 7, 18]),
    ("stramashly_derive", &[8, 9]),
    ("stramashly_derive2", &[8, 9]),
    ("stramashly_accepts", &[10, 11]),
    ("stramashly_accepts2", &[10, 11]),
    ("stramashly_write", &[12]),
    ("stramashly_open", &[13]),
    ("stramashly_read", &[19]),
    ("stramashly_row", &[14, 15]),
    ("stramashly_row2", &[16, 17]),
];

/// Refusals that not every function gives.
const REFUSALS: [(&str, u64); 16] = [
    ("stramashly_check", 11),
    ("stramashly_fill", 11),
    ("stramashly_report", 11),
    ("stramashly_derive", 11),
    ("stramashly_row", 11),
    ("stramashly_read", 11),
    ("stramashly_derive", 12),
    ("stramashly_accepts", 12),
    ("stramashly_write", 13),
    ("stramashly_write", 2),
    ("stramashly_write", 3),
    ("stramashly_write", 16),
    ("stramashly_write", 17),
    ("stramashly_write", 18),
    ("stramashly_check2", 40),
    ("stramashly_check2", 3),
];

#[test]
fn pages_say_what_the_second_implementation_says() {
    let tally = with_room(compare_all).unwrap_or_else(|difference| panic!("{difference}"));
    for (function, code) in CODES
        .iter()
        .flat_map(|(f, codes)| codes.iter().map(move |c| (*f, *c)))
    {
        let count = tally.code(function, code);
        assert!(count >= 20, "{function} said {code} {count} times");
    }
    let of_rows = (1..=10).chain(14..=20);
    let of_rows = of_rows.flat_map(|number| {
        [
            "stramashly_check",
            "stramashly_open",
            "stramashly_row",
            "stramashly_read",
        ]
        .map(|f| (f, number))
    });
    for (function, number) in REFUSALS.into_iter().chain(of_rows) {
        let count = tally.refusal(function, number);
        let least = match function {
            "stramashly_row" | "stramashly_read" => 1,
            _ => 3,
        };
        assert!(count >= least, "{function} refused {number} {count} times");
    }
}
