//! The faults that are named of a refused table are its real ones: each is
//! so by the bytes, and with all of them mended the refusal is gone.

mod common;

use common::{example, generated, Second};
use mend::{edited, Edit, Field, Judge, Run};
use second::{misfits, Fault, State};
use std::collections::BTreeSet;
use stramashly::{CheckAnswer, Checker, MAX_TABLE_BYTES};
use tables::builder::{kind, order, scope};
use tables::{damaged, damaged_hosted, hosted};
use tables::{Build, Random, Row, Size, Table, BLANK, INITIAL};
use words::{explain, fault_words, refusal, unfit_words};

/// The refusal's number and row, if a check refuses the table.
fn refused(table: &[u8], checker: &mut dyn Judge) -> Option<(u16, usize)> {
    match checker.check(table) {
        CheckAnswer::Refused { number, row } => Some((number, row.into())),
        _ => None,
    }
}

/// Edits of the named row after which the fault can't be any more.
fn mend(run: &Run, row: usize, fault: &Fault) -> Vec<Edit> {
    let fields = run.rows[row];
    let set = |field, value: u16| vec![Edit::new(row, field, value)];
    match fault {
        Fault::Code { at, .. } => set(Field::at(*at), 0),
        Fault::NoAgent { .. } => set(Field::Agent, 0),
        Fault::Empty | Fault::Long { .. } | Fault::AtomicLength { .. } => {
            let edits = [set(Field::Length, 4), set(Field::Start, 0)];
            edits.concat()
        }
        Fault::PastEnd { .. } | Fault::Alignment { .. } => set(Field::Start, 0),
        Fault::OtherClass { earlier } => set(Field::Class, run.rows[*earlier].class.into()),
        Fault::Blank { .. }
        | Fault::NoRow { .. }
        | Fault::Itself
        | Fault::NoWriter { .. }
        | Fault::Uncovered { .. } => set(Field::Source, INITIAL),
        Fault::SameRank { .. } => set(Field::Rank, fields.rank.wrapping_add(7777)),
        // Of an instance of its own.
        Fault::OtherExecution { .. } | Fault::SameAgent { .. } | Fault::Apart { .. } => {
            set(Field::Start, 54321)
        }
        Fault::Ranks { writers } => set(Field::Rank, run.rows[writers[0]].rank),
        Fault::AgentRow { sort } => set(Field::Kind, if *sort == 2 { 7 } else { 0 }),
        Fault::Unfit(misfit) => match unfit_words(fields, *misfit).0 {
            Field::Source => set(Field::Source, INITIAL),
            field => set(field, 0),
        },
        _ => Vec::new(),
    }
}

/// Whether a fault is so, read off the bytes.
fn is_so(table: &[u8], row: usize, fault: &Fault) -> bool {
    let run = Run::of(table);
    let agent_bytes = if table.get(4) == Some(&3) { 8 } else { 6 };
    let at = |row: usize| 8 + agent_bytes * usize::from(table[5]) + 16 * row;
    let two = |at: usize| u16::from_be_bytes([table[at], table[at + 1]]);
    let fields = || run.rows[row];
    let is_of_instance = |earlier: usize| {
        let other = run.rows[earlier];
        earlier < row && (other.kind, other.start) == (6, fields().start) && fields().kind == 6
    };
    match fault {
        Fault::Short { bytes } => *bytes == table.len() && *bytes < 8,
        Fault::Version { version } => table[4] == *version && !(1..=3).contains(version),
        Fault::Byte7 { value } => table[7] == *value && *value != 0,
        Fault::Agents { agents } => table[5] == *agents && *agents > 32,
        Fault::Rows { rows } => table[6] == *rows && *rows > 128,
        Fault::Count { count, wanted } => {
            table[..4] == count.to_be_bytes()
                && *wanted == wanted_bytes(table)
                && *count as usize != *wanted
        }
        Fault::Length { bytes, wanted } => {
            table.len() == *bytes && bytes != wanted && *wanted == wanted_bytes(table) + 4
        }
        Fault::NoCount { bytes, least } => {
            let end = at(usize::from(table[6])) + 2;
            table[4] == 3 && table.len() == *bytes && bytes < least && *least == end
        }
        Fault::AgentSort { agent, sort } => two(8 + 8 * agent + 6) == *sort && *sort > 2,
        Fault::Dependencies { count } => {
            usize::from(two(at(usize::from(table[6])))) == *count && *count > 64
        }
        Fault::Dependency {
            number,
            row: named,
            rows,
        } => {
            let place = at(usize::from(table[6])) + 2 + 4 * number;
            let pair = [two(place), two(place + 2)];
            pair.contains(named) && *rows == usize::from(table[6]) && usize::from(*named) >= *rows
        }
        Fault::AgentRow { sort } => {
            let held = two(8 + 8 * usize::from(fields().agent) + 6);
            let is_allowed = match sort {
                1 => fields().kind < 2,
                2 => fields().kind > 6,
                _ => fields().kind < 7,
            };
            held == *sort && !is_allowed
        }
        Fault::Code {
            at: byte,
            value,
            most,
        } => table[at(row) + byte] == *value && value > most && *most >= 3,
        Fault::NoAgent { agent, agents } => {
            table[at(row) + 1] == *agent && *agents == usize::from(table[5]) && *agent >= table[5]
        }
        Fault::Unfit(_) => true,
        Fault::Empty => table[at(row) + 7] == 0,
        Fault::Long { bytes } => table[at(row) + 7] == *bytes && *bytes > 16,
        Fault::PastEnd { start, bytes } => u32::from(*start) + u32::from(*bytes) > 65536,
        Fault::AtomicLength { bytes } => {
            (2..=4).contains(&table[at(row)]) && *bytes != 4 && *bytes != 8
        }
        Fault::Alignment { start, bytes } => {
            (2..=4).contains(&table[at(row)]) && start % u16::from(*bytes) != 0
        }
        Fault::OtherClass { earlier } => {
            let other = run.rows[*earlier];
            let is_other = other.class != fields().class;
            *earlier < row && other.reference == fields().reference && is_other
        }
        Fault::Blank { is_plain } => {
            fields().source == BLANK && *is_plain == (fields().kind == kind::PLAIN_READ)
        }
        Fault::NoRow { source, rows } => usize::from(*source) >= *rows && *source < BLANK,
        Fault::Itself => usize::from(fields().source) == row,
        Fault::NoWriter { source } => !run.rows[*source].writes(),
        Fault::Uncovered { source } => {
            !run.rows[*source].covers_all_bytes_of(fields()) && run.rows[*source].writes()
        }
        Fault::SameRank { earlier } => {
            let other = run.rows[*earlier];
            let place = |row: second::table::Row| (row.start, row.length, row.reference, row.rank);
            *earlier < row && place(other) == place(fields())
        }
        Fault::OtherExecution { earlier } => {
            is_of_instance(*earlier) && run.rows[*earlier].class != fields().class
        }
        Fault::SameAgent { earlier } => {
            is_of_instance(*earlier) && run.rows[*earlier].agent == fields().agent
        }
        Fault::Apart { earlier } => {
            let other = run.rows[*earlier];
            let scope = fields().class;
            let places = |agent: u8| run.agents[usize::from(agent)];
            let depth = [3, 3, 2, 1, 0][usize::from(scope)];
            let (one, two) = (places(other.agent), places(fields().agent));
            let is_apart = scope == 0 || one[..depth] != two[..depth];
            is_of_instance(*earlier) && other.class == scope && is_apart
        }
        Fault::Ranks { writers } => {
            let place = |row: usize| {
                let fields = run.rows[row];
                (fields.start, fields.length, fields.reference)
            };
            let fit = |first: u16| {
                let mut ranks = writers.iter().map(|writer| run.rows[*writer].rank);
                ranks.all(|rank| rank.wrapping_sub(first) < 32768)
            };
            let mut writers = writers.iter();
            let of_place = writers.all(|writer| place(*writer) == place(row) && *writer <= row);
            of_place && !(0..=65535).any(fit) && table[4] >= 2
        }
    }
}

/// What bytes 0 to 3 would have to count.
fn wanted_bytes(table: &[u8]) -> usize {
    let (agents, rows) = (usize::from(table[5]), usize::from(table[6]));
    if table[4] != 3 {
        return 4 + 6 * agents + 16 * rows;
    }
    let at = 8 + 8 * agents + 16 * rows;
    let count = usize::from(u16::from_be_bytes([table[at], table[at + 1]]));
    at - 4 + 2 + 4 * count
}

/// Every fault is so; with all of them mended the table is not refused by
/// this number at this row any more, and each stands in the text.
fn check_faults(table: &[u8], checker: &mut dyn Judge, state: &mut State) -> Option<u16> {
    let (number, row) = refused(table, checker)?;
    let named = state.faults(table, number, row);
    let run = Run::of(table);
    assert!(!named.is_empty(), "{number} {row}");
    let text = explain(table, checker).text();
    for fault in &named {
        assert!(is_so(table, row, fault), "{number} {row} {fault:?}");
        let words = fault_words(&run, row, fault);
        assert!(text.contains(&format!("\n  {words}\n")), "{text}");
    }
    // Kind fit is held to its own test.
    if matches!(number, 5 | 7..=10 | 14 | 15 | 19 | 20) {
        let edits = named.iter().flat_map(|fault| mend(&run, row, fault));
        let mended = edited(table, &edits.collect::<Vec<_>>());
        let answer = refused(&mended, checker);
        assert_ne!(answer, Some((number, row)), "{named:?}");
    }
    Some(number)
}

#[test]
fn the_named_faults_are_the_real_ones() {
    let (mut checker, mut state) = (Checker::new(), State::new());
    let mut random = Random::new(361);
    let mut seen = [0; 21];
    for _ in 0..6000 {
        let table = damaged(&mut random, Size::of(2, 9));
        if let Some(number) = check_faults(&table, &mut checker, &mut state) {
            seen[usize::from(number)] += 1;
        }
    }
    assert!(seen[1..=10].iter().all(|count| *count > 20), "{seen:?}");
    assert!(seen[14] > 20 && seen[15] > 20, "{seen:?}");
}

/// The same of tables with hosts, queues and dependencies.
#[test]
fn the_named_faults_of_hosts_are_the_real_ones() {
    let (mut second, mut state) = (Second::new(), State::new());
    let mut random = Random::new(365);
    let mut seen = [0; 21];
    for _ in 0..4000 {
        let table = damaged_hosted(&mut random, Size::of(2, 9));
        if let Some(number) = check_faults(&table, &mut second, &mut state) {
            seen[usize::from(number)] += 1;
        }
    }
    assert!(seen[16..=20].iter().all(|count| *count > 20), "{seen:?}");
    assert!(seen[4] > 20 && seen[5] > 20, "{seen:?}");
}

/// One row of one agent, as a table.
fn alone(row: Row) -> Vec<u8> {
    Table::of_one_workgroup(1, &[row]).bytes()
}

/// Every order, scope, class set and flags of every kind: a condition is
/// broken exactly where the row is refused for its kind.
#[test]
fn kind_fit_is_broken_exactly_where_it_is_refused() {
    let mut checker = Checker::new();
    let mut counts = [0, 0];
    let rows = (0..=6u8).flat_map(|kind| {
        let codes = (0..4u8).flat_map(|order| (0..5u8).map(move |scope| (order, scope)));
        let more = codes.flat_map(|code| [0, 1, 4, 15u8].map(|classes| (code, classes)));
        let more = more.flat_map(|codes| (0..8u8).map(move |flags| (codes, flags)));
        more.map(move |(((order, scope), classes), flags)| Row {
            kind,
            order,
            scope,
            classes,
            flags,
            length: if kind < 5 { 4 } else { 0 },
            reference: 0,
            ..Row::write(0)
        })
    });
    for row in rows {
        let variants = [
            row,
            Row { source: 0, ..row },
            Row { rank: 1, ..row },
            Row { class: 2, ..row },
            Row { length: 8, ..row },
            Row { start: 8, ..row },
            Row {
                reference: 1,
                ..row
            },
        ];
        for row in variants {
            let table = alone(row);
            let is_refused = refused(&table, &mut checker) == Some((6, 0));
            let broken = misfits(Run::of(&table).rows[0]);
            assert_eq!(!broken.is_empty(), is_refused, "{row:?} {broken:?}");
            counts[usize::from(is_refused)] += 1;
        }
    }
    assert!(counts[0] > 500 && counts[1] > 20_000, "{counts:?}");
}

/// With the fields that are named set to what some fitting row of the kind
/// has, the row fits: no other field is at fault.
#[test]
fn the_fields_that_dont_fit_are_all_named() {
    let mut checker = Checker::new();
    let mut random = Random::new(362);
    let mut seen = 0;
    while seen < 500 {
        let table = damaged(&mut random, Size::of(2, 6));
        let Some((6, row)) = refused(&table, &mut checker) else {
            continue;
        };
        let run = Run::of(&table);
        let unfit = misfits(run.rows[row]).into_iter();
        let unfit = unfit.map(|misfit| unfit_words(run.rows[row], misfit).0);
        let mut fields: BTreeSet<Field> = unfit.collect();
        // What goes with another order.
        if fields.contains(&Field::Order) {
            fields.extend([Field::Classes, Field::Flags]);
        }
        let values = fields.iter().map(|field| match field {
            Field::Source => vec![65535u16],
            Field::Flags => (0..8).collect(),
            Field::Classes => vec![0, 1],
            Field::Order => (0..4).collect(),
            _ => vec![0],
        });
        let mut choices: Vec<Vec<Edit>> = vec![Vec::new()];
        for (field, values) in fields.iter().zip(values) {
            choices = choices
                .iter()
                .flat_map(|edits| {
                    let more = values.iter().map(|value| Edit::new(row, *field, *value));
                    more.map(|edit| [edits.clone(), vec![edit]].concat())
                })
                .collect();
        }
        let fits = choices.iter().any(|edits| {
            let mended = edited(&table, edits);
            refused(&mended, &mut checker) != Some((6, row))
        });
        assert!(fits, "{:?}", misfits(run.rows[row]));
        seen += 1;
    }
}

/// The text of a refused table.
fn told(table: &[u8], answer: &str) -> String {
    let text = explain(table, &mut Checker::new()).text();
    assert_eq!(text.lines().next(), Some(answer), "{text}");
    text
}

#[test]
fn alignment_is_named() {
    let text = told(&alone(Row::atomic_read(0, INITIAL).at(2, 4)), "refused 7 0");
    assert!(
        text.contains("starts at byte 2, which is no multiple of 4"),
        "{text}"
    );
    assert!(!text.contains("goes past"), "{text}");
    let text = told(&alone(Row::atomic_write(0, 1).at(4, 8)), "refused 7 0");
    assert!(
        text.contains("starts at byte 4, which is no multiple of 8"),
        "{text}"
    );
    let text = told(&alone(Row::atomic_write(0, 1).at(0, 3)), "refused 7 0");
    assert!(text.contains("has 3 bytes; an atomic has 4 or 8"), "{text}");
    let text = told(&alone(Row::write(0).at(65535, 2)), "refused 7 0");
    assert!(text.contains("goes past the last one, 65535"), "{text}");
}

/// Reading stops after the largest table; what is after that isn't counted.
#[test]
fn a_length_past_what_is_read_is_told_as_such() {
    let mut long = example("p");
    long.resize(MAX_TABLE_BYTES + 1, 0);
    let text = told(&long, "refused 4 0");
    let more = format!("more than {MAX_TABLE_BYTES} bytes");
    assert!(text.contains(&more), "{text}");
    let counted = (MAX_TABLE_BYTES + 1).to_string();
    assert!(!text.contains(&counted), "{text}");
    long.truncate(MAX_TABLE_BYTES);
    let text = told(&long, "refused 4 0");
    assert!(
        text.contains(&format!(
            "the table has {MAX_TABLE_BYTES} bytes; its counts ask for 84"
        )),
        "{text}"
    );
}

#[test]
fn agents_that_there_are_not_are_counted() {
    for (agents, part) in [
        (0, "there is no agent 3: the table has no agents"),
        (1, "there is no agent 3: the table has agent 0 only"),
        (3, "there is no agent 3: the table has agents 0 to 2"),
    ] {
        let table = Table::of_one_workgroup(agents, &[Row::write(3)]).bytes();
        let text = told(&table, "refused 5 0");
        assert!(text.contains(part), "{text}");
    }
}

/// A fill takes no blank of an atomic, so it isn't recommended there.
#[test]
fn a_blank_on_an_atomic_is_no_matter_of_a_fill() {
    let table = alone(Row::atomic_read(0, BLANK));
    let text = told(&table, "refused 9 0");
    assert!(
        text.contains("only a plain read may be blank, in a fill too"),
        "{text}"
    );
    assert!(!text.contains("stramashly fill"), "{text}");
    assert_eq!(Checker::new().fill(&table).to_string(), "refused 9 0");
}

/// The rank clash is with a row that is mutually-ordered, not with another
/// writer of the place and rank.
#[test]
fn the_row_that_a_rank_clashes_with_is_named() {
    let narrow = Row::atomic_write(0, 1).scope(scope::WORKGROUP);
    let rows = [narrow, Row::atomic_write(1, 1), Row::atomic_write(2, 1)];
    let table = Table::new(&[[0, 0, 0], [0, 1, 0], [0, 2, 0]], &rows).bytes();
    let text = told(&table, "refused 10 2");
    assert!(
        text.contains("row 1, mutually-ordered with it, writes the same place"),
        "{text}"
    );
    assert!(!text.contains("row 0"), "{text}");
}

#[test]
fn the_broken_condition_of_kind_fit_is_named() {
    let barrier = Row::barrier(0, order::RELEASE, 1).class(2);
    let text = told(&alone(barrier), "refused 6 0");
    assert!(
        text.contains("a barrier accesses nothing: its class must be 0, and is 2"),
        "{text}"
    );
    let write = Row::atomic_write(0, 1).release(1).make_visible();
    let text = told(&alone(write), "refused 6 0");
    let part = "only an acquire makes visible, and this atomic write is release";
    assert!(text.contains(part), "{text}");
    for text in [told(&alone(barrier), "refused 6 0"), text] {
        assert_eq!(text.lines().count(), 4, "{text}");
    }
}

/// What `show` says of a table that not even a fill takes is the same.
#[test]
fn show_tells_the_same_faults() {
    let mut checker = Checker::new();
    let mut random = Random::new(363);
    let mut told = 0;
    for _ in 0..1000 {
        let table = damaged(&mut random, Size::of(2, 6));
        let (fill, check) = (
            checker.fill(&table).to_string(),
            checker.check(&table).to_string(),
        );
        if fill == check && fill.starts_with("refused") {
            let text = explain(&table, &mut checker).text();
            assert_eq!(
                refusal(&table, &mut checker).as_deref(),
                Some(text.as_str())
            );
            told += 1;
        }
    }
    assert!(told > 500, "{told}");
}

/// No table that is taken has a fault of any number.
#[test]
fn a_good_table_has_no_faults() {
    let (mut random, mut state) = (Random::new(367), State::new());
    let size = Size::of(2, 10);
    let hosts = (0..300).map(|_| hosted(&mut random, size).bytes());
    for table in generated(364, 300, 2, 10).into_iter().chain(hosts) {
        for number in [2, 3, 4, 5, 6, 7, 8, 9, 10, 14, 15, 16, 17, 18, 19, 20] {
            for row in 0..usize::from(table[6]) {
                let named = state.faults(&table, number, row);
                assert!(named.is_empty(), "{number} {row} {named:?}");
            }
        }
    }
}
