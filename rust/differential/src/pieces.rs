//! Compares tables in one piece or two: check, fill and report with the second
//! implementation, derivations with those of the joined table, and every row.

use crate::reports::{compare_share, UNWRITTEN};
use crate::{expected, Comparison, Difference, Engine, Lengths, Lent, CHECKS, FILLS};
use second::{joined, Chains, CheckAnswer, FillAnswer, Pieces, ReportAnswer};
use stramashly::{
    accepts_in, derive_in, report_in, row_of_pieces, Packed, CHAIN_NUMBERS, CYCLE_NUMBERS,
    PROGRAM_ORDER, SOURCE_NUMBERS, WORK_WORDS,
};
use tables::{hex, MAX_ROWS};

/// What a pair of pieces was answered; both agree.
pub struct OfPieces {
    pub check: CheckAnswer,
    pub fill: FillAnswer,
    /// How many rows were shown.
    pub rows: usize,
}

/// What the second implementation says of a joined table, whose cuts are all the same
/// to it.
pub(crate) struct Joined {
    chains: Chains,
    table: Result<Vec<u8>, u8>,
    check: CheckAnswer,
    report: ReportAnswer,
    fill: FillAnswer,
}

impl Comparison {
    /// All that is asked of two pieces with buffers that are long enough,
    /// derivations aside.
    pub fn pieces(&mut self, chains: Chains, pieces: Pieces) -> Result<OfPieces, Difference> {
        let of_joined = self.of_joined(chains, pieces);
        let (check, fill) = (of_joined.check, of_joined.fill);
        let lengths = self.enough(CYCLE_NUMBERS);
        let expected = |lent: &mut Lent| Some(expected::of_check(&check, lent));
        self.compare_engines(CHECKS, chains, (pieces, lengths), expected)?;
        self.compare_reports(chains, (pieces, lengths), &of_joined.report)?;
        let lengths = self.enough(SOURCE_NUMBERS);
        let expected = |lent: &mut Lent| expected::of_fill(&fill, lent);
        self.compare_engines(FILLS, chains, (pieces, lengths), expected)?;
        let rows = self.rows_of_pieces(pieces)?;
        self.joined = Some(of_joined);
        Ok(OfPieces { check, fill, rows })
    }

    /// Answers with buffers that are long enough; those of the last table are kept.
    fn of_joined(&mut self, chains: Chains, pieces: Pieces) -> Joined {
        let table = joined(pieces);
        let last = self.joined.take();
        if let Some(last) = last.filter(|last| (last.chains, &last.table) == (chains, &table)) {
            return last;
        }
        let (state, work) = (&mut self.state, WORK_WORDS);
        Joined {
            chains,
            table,
            check: state.check_pieces(chains, pieces, work, CYCLE_NUMBERS),
            report: state.report_pieces(chains, pieces, work, CYCLE_NUMBERS),
            fill: state.fill_pieces(chains, pieces, work, SOURCE_NUMBERS),
        }
    }

    /// A check of two pieces with buffers of any length.
    pub fn check_pieces_in(
        &mut self,
        chains: Chains,
        pieces: Pieces,
        lengths: Lengths,
    ) -> Result<CheckAnswer, Difference> {
        let Lengths { work, numbers } = lengths;
        let answer = self.state.check_pieces(chains, pieces, work, numbers);
        let expected = |lent: &mut Lent| Some(expected::of_check(&answer, lent));
        self.compare_engines(CHECKS, chains, (pieces, lengths), expected)?;
        Ok(answer)
    }

    /// A fill of two pieces with buffers of any length. One that the second
    /// implementation gives up on is not compared.
    pub fn fill_pieces_in(
        &mut self,
        chains: Chains,
        pieces: Pieces,
        lengths: Lengths,
    ) -> Result<FillAnswer, Difference> {
        let Lengths { work, numbers } = lengths;
        let answer = self.state.fill_pieces(chains, pieces, work, numbers);
        let expected = |lent: &mut Lent| expected::of_fill(&answer, lent);
        self.compare_engines(FILLS, chains, (pieces, lengths), expected)?;
        Ok(answer)
    }

    /// What the engines answer, held to what is expected, if anything is.
    fn compare_engines(
        &mut self,
        engines: [(&'static str, Engine); 2],
        chains: Chains,
        (pieces, lengths): (Pieces, Lengths),
        expected: impl Fn(&mut Lent) -> Option<Packed>,
    ) -> Result<(), Difference> {
        for (word, engine) in self.engines(engines, pieces) {
            let places = self.prepare_pieces(pieces, lengths);
            let Some(expected) = expected(&mut self.expected) else {
                break;
            };
            let packed = self.ask(engine, chains, places);
            let words = || format!("{word} {} {chains:?}", shown(pieces));
            self.compare(words, lengths, packed, expected)?;
        }
        Ok(())
    }

    /// A report of two pieces with buffers of any length.
    pub fn report_pieces_in(
        &mut self,
        chains: Chains,
        pieces: Pieces,
        lengths: Lengths,
    ) -> Result<ReportAnswer, Difference> {
        let Lengths { work, numbers } = lengths;
        let answer = self.state.report_pieces(chains, pieces, work, numbers);
        self.compare_reports(chains, (pieces, lengths), &answer)?;
        Ok(answer)
    }

    fn compare_reports(
        &mut self,
        chains: Chains,
        (pieces, lengths): (Pieces, Lengths),
        answer: &ReportAnswer,
    ) -> Result<(), Difference> {
        let places = self.prepare_pieces(pieces, lengths);
        let expected = expected::of_report(answer, &mut self.expected);
        let lent = places.map(|(at, size)| &self.around[at..at + size]);
        let (work, cycle) = (&mut self.ours.work, &mut self.ours.numbers);
        let mut share = UNWRITTEN;
        let packed = report_in(chains == Chains::On, lent.into(), work, cycle, &mut share);
        let words = || format!("report2 {} {chains:?}", shown(pieces));
        self.compare(words, lengths, packed, expected)?;
        compare_share(answer, share)
    }

    /// A derivation in two pieces is that of the joined table, with all that
    /// is left in the buffers, and both readers read it alike.
    pub fn derivation_of_pieces(
        &mut self,
        pieces: Pieces,
        moments: [u16; 2],
    ) -> Result<Packed, Difference> {
        let lengths = Lengths {
            work: WORK_WORDS,
            numbers: CHAIN_NUMBERS,
        };
        let places = self.prepare_pieces(pieces, lengths);
        let lent = places.map(|(at, size)| &self.around[at..at + size]);
        let (work, chain) = (&mut self.expected.work, &mut self.expected.numbers);
        let expected = match joined(pieces) {
            Ok(table) => derive_in((&table).into(), moments, work, chain),
            Err(number) => Packed::new(stramashly::Code::Refused, u16::from(number), 0, 0),
        };
        let (work, chain) = (&mut self.ours.work, &mut self.ours.numbers);
        let packed = derive_in(lent.into(), moments, work, chain);
        let words = || format!("derive2 {} {moments:?}", shown(pieces));
        self.compare(words, lengths, packed, expected)?;
        self.reading_of_pieces(pieces, moments, packed)?;
        Ok(packed)
    }

    /// The word, and the first steps in the buffer, as both forms read them.
    fn reading_of_pieces(
        &self,
        pieces: Pieces,
        moments: [u16; 2],
        packed: Packed,
    ) -> Result<(), Difference> {
        let Ok(table) = joined(pieces) else {
            return Ok(());
        };
        let steps = usize::from(packed.b()).min(CHAIN_NUMBERS);
        for (classes, steps) in [
            (PROGRAM_ORDER, 0),
            (packed.a() as u8, steps),
            (packed.a() as u8, steps / 2),
        ] {
            let steps = &self.ours.numbers[..steps];
            let one = accepts_in((&table).into(), moments, classes, steps);
            let two = accepts_in(pieces.into(), moments, classes, steps);
            if one != two {
                let words = format!("{two:?} instead of {one:?}: accepts2 {}", shown(pieces));
                return Err(Difference(words));
            }
        }
        Ok(())
    }

    /// Every row that there may be, and some more; gives how many there are.
    fn rows_of_pieces(&mut self, pieces: Pieces) -> Result<usize, Difference> {
        let expected = self.state.rows_of_pieces(pieces);
        for row in (0..=MAX_ROWS + 1).chain([255, 256, 65535]) {
            let shown_row = row_of_pieces(pieces, row as u16);
            // The very bytes that were lent, and not a copy of them.
            let place = |part: Option<&[u8]>| part.map(|part| (part.as_ptr(), part.len()));
            if place(shown_row) != place(expected.get(row).copied()) {
                let words = format!("{shown_row:?}: row2 {} {row}", shown(pieces));
                return Err(Difference(words));
            }
        }
        Ok(expected.len())
    }

    /// Puts both pieces among random bytes; gives their places and sizes.
    fn prepare_pieces(&mut self, [first, second]: Pieces, lengths: Lengths) -> [(usize, usize); 2] {
        let between = self.random.below(8);
        let gap: Vec<u8> = (0..between).map(|_| self.random.word() as u8).collect();
        let at = self.prepare(&[first, &gap, second].concat(), lengths);
        let second_at = at + first.len() + between;
        [(at, first.len()), (second_at, second.len())]
    }
}

fn shown([first, second]: Pieces) -> String {
    format!("{} {}", hex(first), hex(second))
}
