//! The questions: tables of every generator, and all that is asked of one.

use crate::choice::{chosen, Choice};
use crate::handshake::handshake;
use crate::question::*;
use second::{joined, State};
use tables::{chained, chained_fillable, checkable, damaged, damaged_hosted, examples, fillable};
use tables::{hosted, hosted_fillable, litmus, Random, Size};

const WORK: usize = 8192;
const CYCLE: usize = 256;
const SOURCES: usize = 128;
const CHAIN: usize = 383;
const ROW: usize = 16;
const PROGRAM_ORDER: u8 = 16;

/// Generated tables that told a mutant apart that nothing else did.
const TELLING: [u64; 25] = [
    25, 121, 133, 138, 141, 146, 147, 151, 153, 156, 162, 180, 201, 203, 206, 213, 225, 229, 230,
    368, 371, 396, 530, 551, 559,
];

/// Handshakes among the fixed tables.
const HANDSHAKES: usize = 160;

/// A table, and what is asked of it.
pub struct Case {
    pub table: Vec<u8>,
    pub questions: Vec<Question>,
}

/// A generated table and questions about it; the same for the same seed.
pub fn case(seed: u64) -> Case {
    let mut random = Random::new(seed);
    let size = size(&mut random);
    let table = table(&mut random, size);
    asked(&mut random, table)
}

/// Mostly small tables, since those are quick.
fn size(random: &mut Random) -> Size {
    let (least, most) = match random.below(100) {
        0..=54 => (2, 5),
        55..=84 => (5, 8),
        85..=97 => (8, 12),
        _ => (13, 20),
    };
    Size { least, most }
}

fn table(random: &mut Random, size: Size) -> Vec<u8> {
    let bytes = of_a_generator(random, size);
    match random.below(10) {
        0..=2 => with_dependencies(random, &bytes).unwrap_or(bytes),
        3..=5 => without_a_dependency(random, &bytes).unwrap_or(bytes),
        _ => bytes,
    }
}

/// A table with one dependency fewer.
fn without_a_dependency(random: &mut Random, bytes: &[u8]) -> Option<Vec<u8>> {
    if bytes.len() < 8 || bytes[4] != 3 || rows_of(bytes).1 + 6 > bytes.len() {
        return None;
    }
    let (_, end) = rows_of(bytes);
    let count = (bytes.len() - end - 2) / 4;
    let mut all = bytes.to_vec();
    let at = end + 2 + 4 * random.below(count);
    all.drain(at..at + 4);
    all[end..end + 2].copy_from_slice(&(count as u16 - 1).to_be_bytes());
    let following = (all.len() - 4) as u32;
    all[..4].copy_from_slice(&following.to_be_bytes());
    Some(all)
}

/// A table of another version with its agents as shader agents, and some
/// dependencies between any rows.
pub fn with_dependencies(random: &mut Random, bytes: &[u8]) -> Option<Vec<u8>> {
    if bytes.len() < 8 || bytes[4] > 2 || rows_of(bytes).1 != bytes.len() || bytes[6] == 0 {
        return None;
    }
    let (begin, end) = rows_of(bytes);
    let mut all = bytes[..8].to_vec();
    all[4] = 3;
    for place in bytes[8..begin].chunks(6) {
        all.extend(place);
        all.extend([0, 0]);
    }
    all.extend(&bytes[begin..end]);
    let count = random.pick(&[0, 1, 1, 2, 3]);
    all.extend([0, count]);
    for _ in 0..2 * count {
        all.extend([0, random.below(usize::from(bytes[6])) as u8]);
    }
    let following = (all.len() - 4) as u32;
    all[..4].copy_from_slice(&following.to_be_bytes());
    Some(all)
}

fn of_a_generator(random: &mut Random, size: Size) -> Vec<u8> {
    match random.below(20) {
        16.. => handshake(random).bytes(),
        0..=3 => checkable(random, size).bytes(),
        4..=6 => fillable(random, size).bytes(),
        7 | 8 => chained(random, size).bytes(),
        9 => chained_fillable(random, size).bytes(),
        10 | 11 => hosted(random, size).bytes(),
        12 => hosted_fillable(random, size).bytes(),
        13 | 14 => damaged(random, size),
        _ => damaged_hosted(random, size),
    }
}

/// The examples, the litmus tests, and tables at the limits.
pub fn fixed() -> Vec<Case> {
    let mut random = Random::new(1);
    let named = examples().into_iter().map(|example| example.bytes);
    let known = litmus().into_iter().map(|litmus| litmus.bytes);
    let mut tables: Vec<Vec<u8>> = named.chain(known).collect();
    tables.retain(|table| table.len() < 600);
    tables.push(Vec::new());
    let twice = tables.iter().chain(&tables).cloned();
    let mut cases: Vec<Case> = twice.map(|table| asked(&mut random, table)).collect();
    for _ in 0..HANDSHAKES {
        let bytes = handshake(&mut random).bytes();
        let bytes = match random.below(3) {
            0 => with_dependencies(&mut random, &bytes).unwrap_or(bytes),
            _ => bytes,
        };
        cases.push(asked(&mut random, bytes));
    }
    cases.extend(crate::edges::edges(&mut random));
    cases.extend(crate::telling::telling());
    cases.extend(TELLING.iter().map(|number| case(7 << 32 | number)));
    cases
}

/// All that is asked of a table.
pub fn asked(random: &mut Random, table: Vec<u8>) -> Case {
    let mut questions = Vec::new();
    of_table(random, &table, &mut questions);
    of_moments(random, &table, &mut questions);
    of_rows(random, &table, &mut questions);
    if random.percent(35) {
        of_pieces(random, &table, &mut questions);
    }
    if random.percent(if table.get(4) == Some(&3) { 50 } else { 20 }) {
        of_writer(random, &table, &mut questions);
    }
    Case { table, questions }
}

fn ask(questions: &mut Vec<Question>, function: &'static str, arguments: Vec<Argument>) {
    questions.push(Question {
        function,
        arguments,
    });
}

fn number(number: impl Into<u64>) -> Argument {
    Argument::Number(number.into())
}

/// Long enough nearly always, often a little longer than needed.
fn length(random: &mut Random, needed: usize) -> usize {
    match random.below(100) {
        0..=1 => needed - 1,
        2 => random.below(needed),
        3..=59 => needed,
        _ => needed + random.pick(&[1, 2, 7]),
    }
}

fn work(random: &mut Random) -> Argument {
    let length = length(random, WORK);
    let word = random.word();
    Argument::Words(
        (0..length as u64)
            .map(|at| word.wrapping_add(at) >> 1)
            .collect(),
    )
}

fn halves(random: &mut Random, needed: usize) -> Argument {
    let length = length(random, needed);
    Argument::Halves((0..length).map(|_| random.word() as u16).collect())
}

fn of_table(random: &mut Random, table: &[u8], questions: &mut Vec<Question>) {
    let bytes = || Argument::Bytes(table.to_vec());
    let switches: &[u8] = random.pick(&[&[0][..], &[0], &[1], &[1], &[0, 1], &[0, 255]]);
    for chains in switches {
        let switch = || number(*chains);
        let lent = |random: &mut Random, needed| {
            vec![bytes(), switch(), work(random), halves(random, needed)]
        };
        let flags = random.percent(10);
        let check = if flags {
            "stramashly_check_by_flags"
        } else {
            "stramashly_check"
        };
        let fill = if flags {
            "stramashly_fill_by_flags"
        } else {
            "stramashly_fill"
        };
        ask(questions, check, lent(random, CYCLE));
        ask(questions, fill, lent(random, SOURCES));
        let reported = [lent(random, CYCLE), vec![share()]].concat();
        ask(questions, "stramashly_report", reported);
        let truth = Argument::Truth(*chains != 0);
        ask(
            questions,
            REPORT,
            vec![truth, bytes(), number(WORK as u64), number(CYCLE as u64)],
        );
    }
    ask(questions, "stramashly_open", vec![bytes()]);
}

/// Pairs of moments, and derivations of each: the one that is found, changed
/// ones, and any.
fn of_moments(random: &mut Random, table: &[u8], questions: &mut Vec<Question>) {
    let mut state = State::new();
    let rows = match state.take_in(table) {
        Ok(()) => state.row_count(),
        Err(_) => table.get(6).map_or(0, |rows| usize::from(*rows).min(4)),
    };
    let (ordered, related) = (ordered(&state), related(&state));
    for _ in 0..3 {
        let [first, second] = match random.below(4) {
            0 | 1 if !ordered.is_empty() => random.pick(&ordered),
            2 if !related.is_empty() => {
                let parts = [0, 1].map(|_| random.pick(&[0, 1, 1, 1, 2]));
                let [from, to] = random.pick(&related);
                [3 * from + parts[0], 3 * to + parts[1]]
            }
            _ => [0, 1].map(|_| moment(random, rows)),
        };
        let bytes = || Argument::Bytes(table.to_vec());
        let pair = || vec![bytes(), number(first as u64), number(second as u64)];
        let lent = [pair(), vec![work(random), halves(random, CHAIN)]].concat();
        ask(questions, "stramashly_derive", lent);
        for (classes, steps) in claims(random, &state, first, second) {
            let claim = vec![number(classes), Argument::Halves(steps)];
            ask(questions, "stramashly_accepts", [pair(), claim].concat());
        }
    }
}

/// The pairs that only a chain can order.
fn ordered(state: &State) -> Vec<[usize; 2]> {
    let moments = 3 * state.row_count();
    let pairs = (0..moments).flat_map(|first| (0..moments).map(move |second| [first, second]));
    let is_chained = |[first, second]: &[usize; 2]| {
        state.happens_before(*first, *second) && !state.in_program_order(*first, *second)
    };
    pairs.filter(is_chained).collect()
}

/// The rows of dependencies, and each reader with the row that it read from.
fn related(state: &State) -> Vec<[usize; 2]> {
    let depends = state.dependencies().iter();
    let depends = depends.map(|pair| pair.map(usize::from));
    let read = (0..state.row_count()).filter_map(|row| Some([state.read_from(row)?, row]));
    depends.chain(read).collect()
}

/// Mostly a row's own moment; few rows have one before or after them.
fn moment(random: &mut Random, rows: usize) -> usize {
    match random.below(40) {
        0 => random.pick(&[3 * rows, 3 * rows + 1, 383, 384, 512, 65535]),
        _ => 3 * random.below(rows + usize::from(rows == 0)) + random.pick(&[0, 1, 1, 1, 1, 2]),
    }
}

type Claim = (u8, Vec<u16>);

fn claims(random: &mut Random, state: &State, first: usize, second: usize) -> Vec<Claim> {
    let is_known = state.row_count() > 0 && !state.refusal_12(first, second);
    let found = match is_known.then(|| chosen(state, first, second)) {
        Some(Choice::Chain(classes, steps)) => (classes, steps),
        Some(Choice::NotBefore) => (1, vec![512 + second as u16]),
        Some(Choice::Word) | None => (PROGRAM_ORDER, Vec::new()),
    };
    let mut all = vec![found.clone()];
    for _ in 0..3 {
        let mut changed = found.clone();
        change(random, &mut changed, state.row_count());
        all.push(changed);
    }
    all.push((random.below(18) as u8, found.1));
    all.push((PROGRAM_ORDER, Vec::new()));
    for case in [0, 1, 2, 3, 4, 5] {
        let classes = random.pick(&[1, 1, 2, 3, 15]);
        all.push((classes, vec![512 * case + second as u16 % 512]));
    }
    all
}

fn change(random: &mut Random, (classes, steps): &mut Claim, rows: usize) {
    let any = |random: &mut Random| {
        let case = random.pick(&[0, 1, 1, 2, 2, 3, 3, 4, 4, 5, 127]);
        512 * case + random.below(3 * rows + 2) as u16
    };
    let place = random.below(steps.len().max(1));
    match random.below(9) {
        0 => *classes = random.pick(&[0, 1, 2, 3, 5, 7, 8, 15, 16, 17, 31, 255]),
        1 => *classes ^= 1 << random.below(4),
        2 => steps.insert(place, any(random)),
        3 => *classes = PROGRAM_ORDER,
        _ if steps.is_empty() => steps.push(any(random)),
        4 => steps[place] = steps[place] % 512 + 512 * random.pick(&[0, 1, 2, 3, 4, 5]),
        5 => steps[place] = any(random),
        6 => drop(steps.remove(place)),
        7 => lengthen(random, steps),
        _ => steps.insert(place, steps[place]),
    }
}

/// Repeats the steps up to the most that there may be, or past it.
fn lengthen(random: &mut Random, steps: &mut Vec<u16>) {
    let once = steps.clone();
    let length = CHAIN + random.below(3);
    steps.extend(once.iter().cycle().take(length.saturating_sub(once.len())));
}

/// A number lent for a share, which no share is.
pub fn share() -> Argument {
    Argument::Float((-2.5f64).to_bits())
}

/// Rows at places in any order; the values of a table.
fn of_rows(random: &mut Random, table: &[u8], questions: &mut Vec<Question>) {
    let bytes = || Argument::Bytes(table.to_vec());
    for _ in 0..2 {
        let rows = table.get(6).copied().unwrap_or(3);
        let at = random.below(usize::from(rows) + 2) as u64;
        let at = random.pick(&[at, at, at, at, 65534]);
        let room = random.pick(&[0, 15, 16, 16, 16, 17, 20]);
        let room = (0..room).map(|_| random.word() as u8).collect();
        ask(
            questions,
            "stramashly_row",
            vec![bytes(), number(at), Argument::Bytes(room)],
        );
    }
    let halves = |count, random: &mut Random| (0..count).map(|_| random.word() as u16).collect();
    let less = random.pick(&[0, 0, 0, 0, 1, 2, 3]);
    let places = Argument::Halves(halves(128 + 3 - usize::from(less == 1) * 4, random));
    let rows = (0..2048 + 5 - usize::from(less == 2) * 6).map(|_| random.word() as u8);
    let rows = Argument::Bytes(rows.collect());
    let pairs = Argument::Halves(halves(128 + 2 - usize::from(less == 3) * 3, random));
    ask(
        questions,
        "stramashly_read",
        vec![bytes(), places, rows, pairs],
    );
    if State::new().take_in(table).is_err() {
        return;
    }
    ask(questions, READ_ENTRIES, vec![bytes()]);
    ask(questions, READ_DEPENDENCIES, vec![bytes()]);
}

/// Where the rows of a table begin and end, by its first bytes.
pub(crate) fn rows_of(bytes: &[u8]) -> (usize, usize) {
    let place = if bytes[4] == 3 { 8 } else { 6 };
    let begin = 8 + place * usize::from(bytes[5]);
    (begin, begin + ROW * usize::from(bytes[6]))
}

/// A table cut between two rows, where it has them, at times with a rest.
pub fn cut(random: &mut Random, bytes: &[u8]) -> [Vec<u8>; 2] {
    if bytes.len() < 8 || rows_of(bytes).1 > bytes.len() {
        return [bytes.to_vec(), vec![0; ROW * random.below(3)]];
    }
    let rows = random.below(usize::from(bytes[6]) + 1);
    let (begin, end) = rows_of(bytes);
    let at = begin + ROW * rows;
    let mut first = [&bytes[..at], &bytes[end..]].concat();
    let following = (first.len() - 4) as u32;
    first[..4].copy_from_slice(&following.to_be_bytes());
    first[6] = rows as u8;
    let mut second = bytes[at..end].to_vec();
    match random.below(12) {
        0 => second.resize(second.len() + random.pick(&[1, 8, 15]), 0),
        1 => second.resize(ROW * random.pick(&[128, 129 - rows, 128 - rows]), 0),
        2 => first[random.below(8)] ^= 1 << random.below(8),
        _ => (),
    }
    [first, second]
}

fn of_pieces(random: &mut Random, table: &[u8], questions: &mut Vec<Question>) {
    let [first, second] = cut(random, table);
    let rows = (table.len() / ROW).min(130);
    let pieces = || {
        vec![
            Argument::Bytes(first.clone()),
            Argument::Bytes(second.clone()),
        ]
    };
    let with = |more: Vec<Argument>| [pieces(), more].concat();
    let chains = number(random.pick(&[0u8, 1]));
    let lent =
        |random: &mut Random, needed| vec![chains.clone(), work(random), halves(random, needed)];
    ask(questions, "stramashly_check2", with(lent(random, CYCLE)));
    ask(questions, "stramashly_fill2", with(lent(random, SOURCES)));
    let reported = [lent(random, CYCLE), vec![share()]].concat();
    ask(questions, "stramashly_report2", with(reported));
    of_moments_in_pieces(random, [&first, &second], questions);
    for _ in 0..3 {
        let row = random.below(rows + 2) as u64;
        ask(questions, "stramashly_row2", with(vec![number(row)]));
        ask(questions, ROW_PART, with(vec![number(row)]));
    }
}

fn of_moments_in_pieces(random: &mut Random, pieces: [&[u8]; 2], questions: &mut Vec<Question>) {
    let mut state = State::new();
    let is_known = joined(pieces).is_ok_and(|table| state.take_in(&table).is_ok());
    let rows = if is_known { state.row_count() } else { 3 };
    let [first, second] = [0, 1].map(|_| moment(random, rows));
    let numbers = [number(first as u64), number(second as u64)];
    let pair = || {
        [
            &pieces.map(|piece| Argument::Bytes(piece.to_vec()))[..],
            &numbers,
        ]
        .concat()
    };
    let lent = [pair(), vec![work(random), halves(random, CHAIN)]].concat();
    ask(questions, "stramashly_derive2", lent);
    for (classes, steps) in claims(random, &state, first, second).into_iter().take(2) {
        let claim = vec![number(classes), Argument::Halves(steps)];
        ask(questions, "stramashly_accepts2", [pair(), claim].concat());
    }
}

fn pair(bytes: &[u8]) -> u16 {
    u16::from_be_bytes([bytes[0], bytes[1]])
}

/// Four numbers for each agent.
fn places_of(version: u8, bytes: &[u8]) -> Vec<u16> {
    let width = if version == 3 { 8 } else { 6 };
    let mut places = Vec::new();
    for place in bytes.chunks(width) {
        places.extend(place.chunks(2).map(pair));
        places.extend(std::iter::repeat_n(0, 4 - width / 2));
    }
    places
}

/// The values of a table, at times with something changed, for a buffer of any
/// length; parts that are no whole ones follow them.
pub fn of_writer(random: &mut Random, table: &[u8], questions: &mut Vec<Question>) {
    if table.len() < 8 || rows_of(table).1 > table.len() {
        return;
    }
    let (begin, end) = rows_of(table);
    let (mut version, mut rows) = (table[4], table[begin..end].to_vec());
    let mut places = places_of(version, &table[8..begin]);
    let mut pairs: Vec<u16> = table[end..].chunks_exact(2).skip(1).map(pair).collect();
    match random.below(14) {
        0 => version = random.pick(&[0, 1, 2, 3, 4, 255]),
        1 => places.extend([0, 0, 0, random.pick(&[1, 2, 3, 65535])]),
        2 => places.resize(4 * random.pick(&[0, 32, 33, 256, 300]), 0),
        3 => rows.resize(ROW * random.pick(&[128, 129, 256, 300]), 0),
        4 => pairs.resize(2 * random.pick(&[1, 64, 65]), 0),
        5 => pairs.extend([random.pick(&[0, 65535]), rows.len() as u16 / 16]),
        6 => places.extend([1, 2, 3]),
        7 => rows.extend([1; 15]),
        8 => pairs.push(7),
        _ => (),
    }
    let exact = table.len();
    let room = random.pick(&[exact, exact + 1, exact + 40, exact - 1, 0, 2600]);
    let room = (0..room).map(|_| random.word() as u8).collect();
    let parts = vec![
        Argument::Halves(places),
        Argument::Bytes(rows),
        Argument::Halves(pairs),
    ];
    let arguments = [vec![number(version)], parts, vec![Argument::Bytes(room)]].concat();
    ask(questions, "stramashly_write", arguments);
}
