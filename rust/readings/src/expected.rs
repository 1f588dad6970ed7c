//! What the second implementation's answer means for the number that C is
//! given, and for the buffers.

use crate::choice::{chosen, Choice};
use crate::question::*;
use second::table::Row;
use second::{joined, row_bytes, AcceptsAnswer, Chains, CheckAnswer, Derivation, FillAnswer};
use second::{ReportAnswer, State, Values, WriteAnswer};
use std::collections::BTreeMap;

const HEADER: &str = include_str!("../../../include/stramashly.h");

const WORK: usize = 8192;
const CYCLE: usize = 256;
const CYCLE_EDGES: usize = 128;
const CHAIN: usize = 383;
const ROW: usize = 16;
const PROGRAM_ORDER: u8 = 16;

/// A code of the header, by its name.
fn code(name: &str) -> u64 {
    let line = format!("  STRAMASHLY_{name} = ");
    let rest = HEADER.lines().find_map(|text| text.strip_prefix(&line));
    let digits = rest.map(|text| text.trim_end_matches(','));
    let number = digits.and_then(|text| text.parse().ok());
    number.unwrap_or_else(|| panic!("the header has no code {name}"))
}

fn packed(name: &str, [a, b, c]: [u16; 3]) -> String {
    let parts = [u64::from(a) << 32, u64::from(b) << 16, u64::from(c)];
    (code(name) << 48 | parts[0] | parts[1] | parts[2]).to_string()
}

fn refused(number: u8, row: u16) -> String {
    packed("REFUSED", [number.into(), row, 0])
}

/// What is asked, with the table of two pieces joined.
pub fn told(state: &mut State, question: &Question) -> Option<Told> {
    use Argument::*;
    let all = &question.arguments;
    // Both engines are held to one definition.
    let name = question.function.trim_end_matches("_by_flags");
    match (name.strip_suffix('2').unwrap_or(name), &all[..]) {
        ("stramashly_row", [Bytes(first), Bytes(second), Number(row)]) => {
            Some(place_of(state, [first, second], *row))
        }
        (ROW_PART, [Bytes(first), Bytes(second), Number(row)]) => {
            let part = state.row_of_pieces([first, second], *row as usize);
            Some(said(shown(part.unwrap_or(&[]))))
        }
        (COUNT_BOTH, [Bytes(first), Bytes(second)]) => {
            let table = joined([first, second]);
            Some(said(table.map_or(0, |table| table[6]).to_string()))
        }
        (short, [Bytes(first), Bytes(second), rest @ ..]) if short != name => {
            let table = joined([first, second]);
            of_table(
                state,
                short,
                table.as_deref().map_err(|number| *number),
                rest,
            )
        }
        (_, [Bytes(table), rest @ ..]) => of_table(state, name, Ok(table), rest),
        _ => of_values(state, name, all),
    }
}

fn said(answer: String) -> Told {
    Told {
        answer,
        left: BTreeMap::new(),
    }
}

fn shown<N: ToString>(numbers: &[N]) -> String {
    let texts: Vec<String> = numbers.iter().map(N::to_string).collect();
    format!("[{}]", texts.join(" "))
}

fn wide<N: Copy + Into<u64>>(numbers: &[N]) -> Vec<u64> {
    numbers.iter().map(|number| (*number).into()).collect()
}

fn chains_of(switch: u64) -> Chains {
    match switch {
        0 => Chains::Off,
        _ => Chains::On,
    }
}

/// A question about one table, or about two pieces that have none.
fn of_table(
    state: &mut State,
    name: &str,
    table: Result<&[u8], u8>,
    rest: &[Argument],
) -> Option<Told> {
    use Argument::*;
    match (name, rest) {
        ("stramashly_check", [Number(chains), Words(work), Halves(cycle)]) => {
            let answer = check(state, *chains, table, work, cycle);
            Some(after_check(&answer, work, cycle))
        }
        ("stramashly_report", [Number(chains), Words(work), Halves(cycle), Float(share)]) => {
            let mut told = report(state, *chains, table, work, cycle);
            told.left.entry("share".to_string()).or_insert(vec![*share]);
            Some(told)
        }
        ("stramashly_fill", [Number(chains), Words(work), Halves(sources)]) => {
            fill(state, *chains, table, work, sources)
        }
        ("stramashly_derive", [Number(first), Number(second), Words(work), Halves(chain)]) => {
            Some(derive(state, table, [*first, *second], work, chain))
        }
        ("stramashly_accepts", [Number(first), Number(second), Number(classes), Halves(steps)]) => {
            let claim = (*classes as u8, &steps[..]);
            Some(accepts(state, table, [*first, *second], claim))
        }
        ("stramashly_open", []) => Some(said(match state.take_in(table.ok()?) {
            Ok(()) => packed("OPENED", [table.ok()?[6].into(), table.ok()?[5].into(), 0]),
            Err((number, row)) => refused(number, row),
        })),
        ("stramashly_row", [Number(at), Bytes(room)]) => {
            Some(row_at(state, table.ok()?, *at, room))
        }
        ("stramashly_read", [Halves(places), Bytes(rows), Halves(pairs)]) => {
            Some(read_parts(state, table.ok()?, places, rows, pairs))
        }
        (READ_ENTRIES | READ_DEPENDENCIES, []) => Some(said(read_back(name, table.ok()?))),
        _ => panic!("{name} with {rest:?}"),
    }
}

fn check(
    state: &mut State,
    chains: u64,
    table: Result<&[u8], u8>,
    work: &[u64],
    cycle: &[u16],
) -> CheckAnswer {
    match table {
        _ if work.len() < WORK || cycle.len() < CYCLE => {
            CheckAnswer::Refused { number: 11, row: 0 }
        }
        Err(number) => CheckAnswer::Refused { number, row: 0 },
        Ok(table) => state.check_with(chains_of(chains), table, work.len(), cycle.len()),
    }
}

/// The work area's first words are zeros unless the table is refused.
fn buffers(
    is_refused: bool,
    work: &[u64],
    name: &str,
    numbers: Vec<u64>,
) -> BTreeMap<String, Vec<u64>> {
    let mut work = work.to_vec();
    if !is_refused {
        work[..WORK].fill(0);
    }
    BTreeMap::from([("work".to_string(), work), (name.to_string(), numbers)])
}

fn after_check(answer: &CheckAnswer, work: &[u64], cycle: &[u16]) -> Told {
    let mut numbers = wide(cycle);
    let answer_told = match answer {
        CheckAnswer::Refused { number, row } => refused(*number, *row),
        CheckAnswer::Cycle { rows, edges } => {
            let (rows, edges) = (rows.as_slice(), edges.as_slice());
            numbers[..CYCLE].fill(0);
            numbers[..rows.len()].copy_from_slice(&wide(rows));
            numbers[CYCLE_EDGES..][..edges.len()].copy_from_slice(&wide(edges));
            packed("CYCLE", [rows.len() as u16, 0, 0])
        }
        CheckAnswer::Overwritten {
            reader,
            writer,
            byte,
        } => packed("OVERWRITTEN", [*reader, *writer, *byte]),
        CheckAnswer::Race {
            first,
            second,
            byte,
        } => packed("RACE", [*first, *second, *byte]),
        CheckAnswer::RaceFree => packed("RACE_FREE", [0; 3]),
    };
    let is_refused = matches!(answer, CheckAnswer::Refused { .. });
    Told {
        answer: answer_told,
        left: buffers(is_refused, work, "cycle", numbers),
    }
}

fn report(
    state: &mut State,
    chains: u64,
    table: Result<&[u8], u8>,
    work: &[u64],
    cycle: &[u16],
) -> Told {
    let answer = check(state, chains, table, work, cycle);
    let mut told = after_check(&answer, work, cycle);
    if let (Ok(table), CheckAnswer::Race { .. } | CheckAnswer::RaceFree) = (table, &answer) {
        let report = state.report_with(chains_of(chains), table, work.len(), cycle.len());
        if let ReportAnswer::Counts(counts) = report {
            let Some(share) = counts.share() else {
                told.answer = packed("NO_PAIRS", [0; 3]);
                return told;
            };
            told.answer = packed("REPORT", [counts.mutual, counts.ordered, counts.racing]);
            told.left.insert("share".to_string(), vec![share.to_bits()]);
        }
    }
    told
}

fn fill(
    state: &mut State,
    chains: u64,
    table: Result<&[u8], u8>,
    work: &[u64],
    sources: &[u16],
) -> Option<Told> {
    let answer = match table {
        _ if work.len() < WORK || sources.len() < 128 => FillAnswer::Refused { number: 11, row: 0 },
        Err(number) => FillAnswer::Refused { number, row: 0 },
        Ok(table) => state.fill_with(chains_of(chains), table, work.len(), sources.len()),
    };
    let mut numbers = wide(sources);
    let told = match answer {
        FillAnswer::TooMany => return None,
        FillAnswer::Refused { number, row } => refused(number, row),
        FillAnswer::None => packed("NONE", [0; 3]),
        FillAnswer::Race {
            first,
            second,
            byte,
        } => packed("RACE", [first, second, byte]),
        FillAnswer::Filled(found) => {
            let found = wide(found.as_slice());
            numbers[..found.len()].copy_from_slice(&found);
            packed("FILLED", [found.len() as u16, 0, 0])
        }
    };
    let is_refused = matches!(answer, FillAnswer::Refused { .. });
    Some(Told {
        answer: told,
        left: buffers(is_refused, work, "sources", numbers),
    })
}

fn derive(
    state: &mut State,
    table: Result<&[u8], u8>,
    pair: [u64; 2],
    work: &[u64],
    chain: &[u16],
) -> Told {
    let [first, second] = pair.map(|number| number as usize);
    let refusal = match table.map(|table| state.take_in(table)) {
        _ if work.len() < WORK || chain.len() < CHAIN => Some((11, 0)),
        Err(number) => Some((number, 0)),
        Ok(Err(refusal)) => Some(refusal),
        Ok(Ok(())) => state.refusal_12(first, second).then_some((12, 0)),
    };
    let mut numbers = wide(chain);
    let answer = match refusal {
        Some((number, row)) => refused(number, row),
        None => match chosen(state, first, second) {
            Choice::Word => packed("DERIVATION", [PROGRAM_ORDER.into(), 0, 0]),
            Choice::NotBefore => packed("NOT_BEFORE", [0; 3]),
            Choice::Chain(classes, steps) => {
                numbers[..steps.len()].copy_from_slice(&wide(&steps));
                packed("DERIVATION", [classes.into(), steps.len() as u16, 0])
            }
        },
    };
    Told {
        answer,
        left: buffers(refusal.is_some(), work, "chain", numbers),
    }
}

fn accepts(
    state: &mut State,
    table: Result<&[u8], u8>,
    pair: [u64; 2],
    claim: (u8, &[u16]),
) -> Told {
    let [first, second] = pair.map(|number| number as u16);
    let derivation = match claim {
        // With steps beside it the word is no word.
        (PROGRAM_ORDER, []) => Derivation::ProgramOrder,
        (classes, steps) => Derivation::Chain { classes, steps },
    };
    let answer = match table {
        Err(number) => AcceptsAnswer::Refused { number, row: 0 },
        Ok(table) => state.accepts(table, first, second, derivation),
    };
    said(match answer {
        AcceptsAnswer::Refused { number, row } => refused(number, row),
        AcceptsAnswer::Accepted => packed("ACCEPTED", [0; 3]),
        AcceptsAnswer::NotAccepted => packed("NOT_ACCEPTED", [0; 3]),
    })
}

/// The row at a place of a table, or what a fill refuses it for.
fn row_at(state: &mut State, table: &[u8], at: u64, room: &[u8]) -> Told {
    let mut row = room.to_vec();
    let answer = match state.step_through(table) {
        _ if room.len() < ROW => refused(11, 0),
        second::RowsAnswer::Refused { number, row } => refused(number, row),
        second::RowsAnswer::Rows(rows) => match rows.get(at as usize) {
            None => packed("END", [at as u16, 0, 0]),
            Some(bytes) => {
                row[..ROW].copy_from_slice(bytes);
                packed("ROW", [at as u16 + 1, 0, 0])
            }
        },
    };
    Told {
        answer,
        left: BTreeMap::from([("row".to_string(), wide(&row))]),
    }
}

/// The values of a table in the front of lent parts, each long enough for any
/// table, or what a fill refuses it for.
fn read_parts(state: &mut State, table: &[u8], places: &[u16], rows: &[u8], pairs: &[u16]) -> Told {
    let [mut places, mut rows, mut pairs] = [wide(places), wide(rows), wide(pairs)];
    let is_short = places.len() < 4 * 32 || rows.len() < ROW * 128 || pairs.len() < 2 * 64;
    let answer = match state.take_in(table) {
        _ if is_short => refused(11, 0),
        Err((number, row)) => refused(number, row),
        Ok(()) => {
            let values = Values::of(table);
            let counts = [
                values.places.len(),
                values.rows.len(),
                values.dependencies.len(),
            ];
            let [agents, row_count, dependencies] = counts.map(|count| count as u16);
            front(&mut places, &wide(&values.places.concat()));
            let (begin, end) = crate::corpus::rows_of(table);
            front(&mut rows, &wide(&table[begin..end]));
            front(&mut pairs, &wide(&values.dependencies.concat()));
            let version = u16::from(values.version) * 256;
            packed("READ", [version + agents, row_count, dependencies])
        }
    };
    let parts = [("places", places), ("rows", rows), ("dependencies", pairs)];
    Told {
        answer,
        left: parts
            .map(|(name, numbers)| (name.to_string(), numbers))
            .into(),
    }
}

fn front(numbers: &mut [u64], first: &[u64]) {
    numbers[..first.len()].copy_from_slice(first);
}

/// Where row n's bytes are: found by their addresses.
fn place_of(state: &mut State, pieces: [&[u8]; 2], row: u64) -> Told {
    let Some(part) = state.row_of_pieces(pieces, row as usize) else {
        return said(packed("NO_ROW", [0; 3]));
    };
    let mut places = pieces.iter().enumerate().filter_map(|(number, piece)| {
        let inside = piece.as_ptr_range();
        let is_inside = inside.contains(&part.as_ptr());
        is_inside.then(|| {
            (
                number as u16,
                part.as_ptr() as usize - inside.start as usize,
            )
        })
    });
    let (number, at) = places.next_back().expect("a part of a piece");
    said(packed("ROW_PLACE", [number, at as u16, 0]))
}

/// Rows, or dependencies, as they were read from a table that has an
/// admissible header; zeros past those that there are.
fn read_back(name: &str, table: &[u8]) -> String {
    let values = Values::of(table);
    if name == READ_ENTRIES {
        let row = |at: usize| values.rows.get(at).copied().unwrap_or_default();
        let entries: Vec<String> = (0..128).map(|at| entry(row(at))).collect();
        return shown(&entries);
    }
    let end = |at: usize, side: usize| values.dependencies.get(at).map_or(0, |pair| pair[side]);
    let sides = [0, 1].map(|side| (0..64).map(|at| end(at, side)).collect::<Vec<u16>>());
    let count = values.dependencies.len();
    format!("{{{count} {} {}}}", shown(&sides[0]), shown(&sides[1]))
}

fn entry(row: Row) -> String {
    let bytes = row_bytes(row);
    let small: Vec<String> = bytes[..8].iter().map(u8::to_string).collect();
    let (start, reference, rank) = (row.start, row.reference, row.rank);
    format!(
        "{{{{{} {start} {reference} {rank}}} {{{}}}}}",
        small.join(" "),
        row.source
    )
}

/// Questions that are about no table.
fn of_values(state: &mut State, name: &str, all: &[Argument]) -> Option<Told> {
    use Argument::*;
    match (name, all) {
        (
            "stramashly_write",
            [Number(version), Halves(places), Bytes(rows), Halves(pairs), Bytes(out)],
        ) => {
            let values = values_of(*version, places, rows, pairs);
            Some(written(state, &values, out))
        }
        (REPORT, [Truth(chains), Bytes(table), Number(work), Number(cycle)]) => {
            let chains = chains_of(u64::from(*chains));
            let answer = state.report_with(chains, table, *work as usize, *cycle as usize);
            Some(said(reported(&answer)))
        }
        (LOWEST_SHARED, [Number(a), Number(m), Number(b), Number(n)]) => {
            let lowest = (*a..a + m).find(|byte| (*b..b + n).contains(byte));
            let answer = lowest.map(|byte| format!("Some {byte}"));
            Some(said(answer.unwrap_or_else(|| "None".to_string())))
        }
        (SHARES, [Places(places), Number(scope), Number(a), Number(b)]) => Some(said(
            shares(places, *scope, *a as usize, *b as usize).to_string(),
        )),
        _ => panic!("{name} with {all:?}"),
    }
}

/// Whole parts count, and a rest counts for nothing.
fn values_of(version: u64, places: &[u16], rows: &[u8], pairs: &[u16]) -> Values {
    let places = places.chunks_exact(4);
    let pairs = pairs.chunks_exact(2);
    Values {
        version: version as u8,
        places: places.map(|p| [p[0], p[1], p[2], p[3]]).collect(),
        rows: rows.chunks_exact(ROW).map(Row::from_bytes).collect(),
        dependencies: pairs.map(|pair| [pair[0], pair[1]]).collect(),
    }
}

fn written(state: &mut State, values: &Values, out: &[u8]) -> Told {
    let mut bytes = out.to_vec();
    let answer = match state.write(values, out.len()) {
        WriteAnswer::Refused { number, row } => refused(number, row),
        WriteAnswer::Written(table) => {
            bytes[..table.len()].copy_from_slice(&table);
            packed("WRITTEN", [table.len() as u16, 0, 0])
        }
    };
    Told {
        answer,
        left: BTreeMap::from([("out".to_string(), wide(&bytes))]),
    }
}

/// A report with all of its counts, as the page tells it.
fn reported(answer: &ReportAnswer) -> String {
    match answer {
        ReportAnswer::Counts(counts) => match counts.share() {
            None => "no_pairs".to_string(),
            Some(share) => format!(
                "reported {{{} {} {} {} {}}}",
                counts.conflicting,
                counts.mutual,
                counts.ordered,
                counts.racing,
                share.to_bits(),
            ),
        },
        ReportAnswer::Check(CheckAnswer::Refused { number, row }) => {
            format!("refused {number} {row}")
        }
        ReportAnswer::Check(CheckAnswer::Cycle { rows, .. }) => {
            format!("cyclic {}", rows.as_slice().len())
        }
        ReportAnswer::Check(CheckAnswer::Overwritten {
            reader,
            writer,
            byte,
        }) => {
            format!("overwritten {reader} {writer} {byte}")
        }
        ReportAnswer::Check(other) => panic!("a report that says {other}"),
    }
}

/// M2, where one instance of a scope holds two shader agents: numbers agree
/// from the family down to the scope.
fn shares(places: &[[u16; 4]], scope: u64, a: usize, b: usize) -> bool {
    let [x, y] = [a, b].map(|agent| places.get(agent).copied().unwrap_or_default());
    let agreeing = |count: usize| x[..count] == y[..count];
    let in_scope = match scope {
        0 => a == b,
        1 => agreeing(3),
        2 => agreeing(2),
        3 => agreeing(1),
        scope => scope == 4,
    };
    x[3] == 0 && y[3] == 0 && in_scope
}
