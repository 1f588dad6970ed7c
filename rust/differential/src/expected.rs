//! What the second implementation's answer means for the packed answer and
//! the buffers.

use crate::Lent;
use second::{CheckAnswer, FillAnswer, ReportAnswer};
use stramashly::{Code, Packed, CYCLE_EDGES, CYCLE_NUMBERS, WORK_WORDS};

/// The packed answer; the buffers become what they must hold after it.
pub(crate) fn of_check(answer: &CheckAnswer, lent: &mut Lent) -> Packed {
    let packed = match *answer {
        CheckAnswer::Refused { number, row } => return refused(number, row),
        CheckAnswer::Cycle { rows, edges } => {
            put_cycle(&mut lent.numbers, rows.as_slice(), edges.as_slice());
            Packed::new(Code::Cycle, rows.as_slice().len() as u16, 0, 0)
        }
        CheckAnswer::Overwritten {
            reader,
            writer,
            byte,
        } => Packed::new(Code::Overwritten, reader, writer, byte),
        CheckAnswer::Race {
            first,
            second,
            byte,
        } => Packed::new(Code::Race, first, second, byte),
        CheckAnswer::RaceFree => Packed::new(Code::RaceFree, 0, 0, 0),
    };
    lent.work[..WORK_WORDS].fill(0);
    packed
}

/// The packed answer, unless nothing was decided; the buffers become what
/// they must hold after it.
pub(crate) fn of_fill(answer: &FillAnswer, lent: &mut Lent) -> Option<Packed> {
    let packed = match *answer {
        FillAnswer::Refused { number, row } => return Some(refused(number, row)),
        FillAnswer::TooMany => return None,
        FillAnswer::None => Packed::new(Code::None, 0, 0, 0),
        FillAnswer::Race {
            first,
            second,
            byte,
        } => Packed::new(Code::Race, first, second, byte),
        FillAnswer::Filled(sources) => {
            let sources = sources.as_slice();
            lent.numbers[..sources.len()].copy_from_slice(sources);
            Packed::new(Code::Filled, sources.len() as u16, 0, 0)
        }
    };
    lent.work[..WORK_WORDS].fill(0);
    Some(packed)
}

/// The packed answer; the buffers become what they must hold after it.
pub(crate) fn of_report(answer: &ReportAnswer, lent: &mut Lent) -> Packed {
    match answer {
        ReportAnswer::Check(answer) => of_check(answer, lent),
        ReportAnswer::Counts(counts) => {
            lent.work[..WORK_WORDS].fill(0);
            let code = match counts.conflicting {
                0 => Code::NoPairs,
                _ => Code::Report,
            };
            Packed::new(code, counts.mutual, counts.ordered, counts.racing)
        }
    }
}

/// A refusal changes no buffer.
fn refused(number: u8, row: u16) -> Packed {
    Packed::new(Code::Refused, u16::from(number), row, 0)
}

fn put_cycle(numbers: &mut [u16], rows: &[u16], edges: &[u16]) {
    numbers[..CYCLE_NUMBERS].fill(0);
    numbers[..rows.len()].copy_from_slice(rows);
    numbers[CYCLE_EDGES..][..edges.len()].copy_from_slice(edges);
}
