//! Reports and shares, and the lent buffers.

mod common;

use common::example;
use stramashly::*;

#[test]
fn reports_of_each_answer() {
    let mut checker = Checker::new();
    let report = |conflicting, mutual, ordered, racing, share| {
        ReportAnswer::Report(Report {
            conflicting,
            mutual,
            ordered,
            racing,
            share,
        })
    };
    for (name, expected) in [
        ("leak", report(3, 1, 0, 2, Share::Of(2.0 / 3.0))),
        ("leak-mended", report(3, 1, 2, 0, Share::Of(0.0))),
        ("empty", report(0, 0, 0, 0, Share::NoPairs)),
    ] {
        assert_eq!(checker.report(&example(name)), expected, "{name}");
    }
    // These have check's answer.
    for name in [
        "p-initial",
        "lost-update",
        "overwritten",
        "fill",
        "version-4",
    ] {
        let table = example(name);
        let checked = checker.check(&table).to_string();
        let answer = checker.report(&table);
        assert!(matches!(answer, ReportAnswer::Check(_)), "{name}");
        assert_eq!(answer.to_string(), checked, "{name}");
    }
}

#[test]
fn shares_are_written_in_the_fewest_digits() {
    for (share, text) in [
        (Share::Of(0.0), "0.0"),
        (Share::Of(0.25), "0.25"),
        (Share::Of(1.0), "1.0"),
        (Share::Of(1.0 / 3.0), "0.3333333333333333"),
        (Share::Of(1.0 / 2016.0), "0.000496031746031746"),
        (Share::NoPairs, "no-share"),
    ] {
        assert_eq!(share.to_string(), text);
        if let Share::Of(number) = share {
            assert_eq!(text.parse(), Ok(number));
        }
    }
}

/// A write; so many reads of it by its own agent, which program order orders; and
/// so many reads by other agents, which race.
fn racing_and_ordered(racing: u8, ordered: u8) -> Vec<u8> {
    let row = |kind, agent, source| Row {
        kind,
        agent,
        length: 1,
        source,
        ..Row::default()
    };
    let mut writer = TableWriter::new(1);
    (0..=u16::from(racing)).for_each(|agent| _ = writer.place([0, 0, agent, 0]));
    writer.row(row(1, 0, INITIAL));
    (0..ordered).for_each(|_| _ = writer.row(row(0, 0, 0)));
    (0..racing).for_each(|agent| _ = writer.row(row(0, agent + 1, INITIAL)));
    writer.write().unwrap()
}

/// The share that is handed over is the rounded quotient of the counts beside it.
#[test]
fn the_share_is_the_division() {
    let mut checker = Checker::new();
    for racing in 0..=31 {
        for ordered in 0..=40 {
            let answer = checker.report(&racing_and_ordered(racing, ordered));
            let ReportAnswer::Report(report) = answer else {
                panic!("{answer}");
            };
            let counts = (report.ordered, report.racing);
            assert_eq!(counts, (u16::from(ordered), u16::from(racing)));
            let quotient = f64::from(report.racing) / f64::from(report.conflicting);
            let expected = match report.conflicting {
                0 => Share::NoPairs,
                _ => Share::Of(quotient),
            };
            assert_eq!(report.share, expected, "{racing} {ordered}");
        }
    }
}

/// A report and what stands in the place of its share, which was 7.0.
fn report_beside(name: &str, work: &mut [u64], cycle: &mut [u16]) -> (Packed, f64) {
    let mut share = 7.0;
    let packed = report_in(false, (&example(name)).into(), work, cycle, &mut share);
    (packed, share)
}

#[test]
fn lent_buffers_hold_what_the_header_says() {
    let mut work = vec![7; WORK_WORDS + 1];
    let mut cycle = vec![9; CYCLE_NUMBERS + 1];
    let answer = report_beside("leak", &mut work, &mut cycle);
    assert_eq!(answer, (Packed::new(Code::Report, 1, 0, 2), 2.0 / 3.0));
    assert!(work[..WORK_WORDS].iter().all(|word| *word == 0) && work[WORK_WORDS] == 7);
    assert!(cycle.iter().all(|number| *number == 9));
    let answer = report_beside("p-initial", &mut work, &mut cycle);
    assert_eq!(answer, (Packed::new(Code::Cycle, 2, 0, 0), 7.0));
    assert_eq!((cycle[..2].to_vec(), cycle[CYCLE_NUMBERS]), (vec![0, 3], 9));
    let (mut work, mut cycle) = (vec![7; WORK_WORDS], vec![9; CYCLE_NUMBERS]);
    let refused = (Packed::new(Code::Refused, 11, 0, 0), 7.0);
    assert_eq!(report_beside("leak", &mut work[1..], &mut cycle), refused);
    assert_eq!(report_beside("leak", &mut work, &mut cycle[1..]), refused);
    assert!(work.iter().all(|word| *word == 7) && cycle.iter().all(|number| *number == 9));
    let answer = report_beside("empty", &mut work, &mut cycle);
    assert_eq!(answer, (Packed::new(Code::NoPairs, 0, 0, 0), 7.0));
}
