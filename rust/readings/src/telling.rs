//! Small tables about one part of a rule each, which generated tables hardly
//! ever lead to: without that part the answer is another.

use crate::corpus::{share, Case};
use crate::question::{Argument, Question, COUNT_BOTH};
use tables::{Build, Row, Table, BLANK, INITIAL};

/// Sorts of agents, and kinds of what a queue does.
const SHADER: u16 = 0;
const HOST: u16 = 1;
const QUEUE: u16 = 2;
const AVAILABLE_TO_HOST: u8 = 7;
const AVAILABLE_TO_DEVICE: u8 = 8;
const DEVICE_TO_HOST: u8 = 12;

pub fn telling() -> Vec<Case> {
    let mut cases: Vec<Case> = tables().iter().map(asked).collect();
    cases.push(itself());
    cases.push(whole_limits());
    cases.push(turned_pieces());
    cases
}

fn tables() -> Vec<Table> {
    let mut all = vec![
        later_rank(),
        reader_first(),
        half_covered(),
        private_writer(),
    ];
    all.extend([one_class(), other_reference(), classes_apart_to_writer()]);
    all.extend(chains());
    all.extend(barriers());
    all.extend(hosts());
    all
}

/// The datum that is raced for.
fn datum(row: Row) -> Row {
    row.at(0, 4).reference(1)
}

/// One of two flags, in workgroup scope.
fn flag(row: Row, number: u16) -> Row {
    row.at(16 + 4 * number, 4).reference(2 + number).scope(2)
}

/// A writer that follows the source in scoped order, after the blank.
fn later_rank() -> Table {
    let rows = [
        datum(Row::atomic_write(0, 1)),
        datum(Row::read(0, BLANK)),
        datum(Row::atomic_write(0, 2)),
    ];
    Table::of_one_workgroup(1, &rows)
}

/// The blanks stand before the writer in the table; one comes before the other.
fn reader_first() -> Table {
    let rows = [
        flag(Row::atomic_read(0, 4), 0).acquire(1).make_visible(),
        datum(Row::read(0, BLANK)),
        datum(Row::read(0, BLANK)),
        datum(Row::write(1)),
        flag(Row::atomic_write(1, 1), 0).release(1).make_available(),
    ];
    Table::of_one_workgroup(2, &rows)
}

/// The visibility operation before the read isn't of its class.
fn half_covered() -> Table {
    let rows = [
        datum(Row::write(0)).class(1),
        flag(Row::atomic_write(0, 1), 0).release(3).make_available(),
        flag(Row::atomic_read(1, 1), 0).acquire(1).make_visible(),
        datum(Row::read(1, 0)).class(1),
    ];
    Table::of_one_workgroup(2, &rows)
}

/// Atomics of two sizes, ordered by the one class that both sides hold; no row
/// has that class alone, or none.
fn one_class() -> Table {
    let datum = |row: Row, length| row.at(0, length).reference(1).class(1).scope(2);
    let rows = [
        datum(Row::atomic_write(0, 1), 8).release(3),
        flag(Row::atomic_write(0, 1), 0).release(3).make_available(),
        flag(Row::atomic_read(1, 1), 0).acquire(6).make_visible(),
        datum(Row::atomic_read(1, 0), 4).acquire(6),
    ];
    Table::of_one_workgroup(2, &rows)
}

/// A read, and a private write after it.
fn private_writer() -> Table {
    let rows = [
        datum(Row::read(0, INITIAL)),
        flag(Row::atomic_write(0, 1), 0).release(1).make_available(),
        flag(Row::atomic_read(1, 1), 0).acquire(1).make_visible(),
        datum(Row::write(1)).private(),
    ];
    Table::of_one_workgroup(2, &rows)
}

/// What makes available has the same bytes by another reference.
fn other_reference() -> Table {
    let rows = [
        datum(Row::write(0)),
        datum(Row::write(0)).reference(9).make_available().scope(2),
        flag(Row::atomic_write(0, 1), 0).release(1),
        flag(Row::atomic_read(1, 2), 0).acquire(1).make_visible(),
        datum(Row::read(1, 0)),
    ];
    Table::of_one_workgroup(2, &rows)
}

/// From agent 0 to 1 and on to 2: the first row, the class sets of the four
/// atomics between, and the last row.
fn relayed(first: Row, classes: [u8; 4], last: Row) -> [Row; 6] {
    [
        datum(first),
        flag(Row::atomic_write(0, 1), 0).release(classes[0]),
        flag(Row::atomic_read(1, 1), 0).acquire(classes[1]),
        flag(Row::atomic_write(1, 1), 1).release(classes[2]),
        flag(Row::atomic_read(2, 3), 1).acquire(classes[3]),
        datum(last),
    ]
}

/// A read, made available and visible as a write would be, and an RMW that it
/// doesn't happen before: only another class leads there.
fn classes_apart_to_writer() -> Table {
    let last = Row::rmw(2, INITIAL, 1).class(2).scope(2);
    let mut rows = relayed(Row::read(0, INITIAL).class(2), [5, 1, 1, 5], last);
    rows[1] = rows[1].make_available();
    rows[4] = rows[4].make_visible();
    Table::of_one_workgroup(3, &rows)
}

/// Chains whose elements are of one scope, and one whose middle is out of the
/// domain; each step is of another class.
fn chains() -> Vec<Table> {
    let ends = (Row::write(0).class(2), Row::read(2, 0).class(2));
    let mut available = relayed(ends.0, [5, 1, 3, 6], ends.1);
    for place in [1, 3] {
        available[place] = available[place].make_available();
    }
    available[4] = available[4].make_visible();
    let mut visible = relayed(ends.0, [5, 3, 2, 6], ends.1);
    visible[1] = visible[1].make_available();
    for place in [2, 4] {
        visible[place] = visible[place].make_visible();
    }
    let last = Row::read(2, 0).class(1).make_visible().scope(1);
    let mut apart = relayed(Row::write(0).class(1), [3, 1, 3, 2], last);
    apart[1] = apart[1].make_available();
    apart[3] = apart[3].make_available().scope(3);
    apart[4] = apart[4].scope(3);
    vec![
        Table::of_one_workgroup(3, &available),
        Table::of_one_workgroup(3, &visible),
        Table::new(&[[0, 0, 0], [0, 0, 1], [0, 0, 0]], &apart),
    ]
}

/// A read before a write, by way of barriers that lack one thing each.
fn barriers() -> Vec<Table> {
    let first = datum(Row::read(0, INITIAL));
    let last = datum(Row::write(1));
    let release = Row::barrier(0, 2, 1).scope(2);
    let acquire = Row::barrier(1, 1, 1).scope(2);
    let store = flag(Row::atomic_write(0, 1), 0);
    let load = |from| flag(Row::atomic_read(1, from), 0);
    let other = flag(Row::atomic_read(1, INITIAL), 1).acquire(1);
    let meet = |agent| Row::control_barrier(agent, 2, 7).scope(2);
    let apart = [[0, 0, 0], [0, 0, 1]];
    vec![
        // The flag is stored before the barrier, or loaded after it.
        Table::of_one_workgroup(2, &[first, store, release, load(1), acquire, last]),
        Table::of_one_workgroup(2, &[first, release, store, acquire, load(2), last]),
        // The barriers' scopes don't hold both agents.
        Table::new(
            &apart,
            &[
                first,
                release.scope(1),
                store,
                load(2),
                acquire.scope(1),
                last,
            ],
        ),
        // An atomic stands where a barrier would have to.
        Table::of_one_workgroup(2, &[first, release, store, load(2), other, last]),
        Table::of_one_workgroup(2, &[first, meet(0).order(2, 1), meet(1), other, last]),
    ]
}

/// Shaders, hosts and queues that lack one thing each.
fn hosts() -> Vec<Table> {
    let operation = |kind| Row::queue(1, kind);
    let sorts = [SHADER, QUEUE, HOST];
    let carried = |first: Row| {
        [
            datum(first),
            flag(Row::atomic_write(0, 1), 0).release(1).make_available(),
            operation(AVAILABLE_TO_DEVICE),
            operation(DEVICE_TO_HOST),
            datum(Row::write(2)),
        ]
    };
    let seen = [
        datum(Row::write(0)),
        operation(AVAILABLE_TO_HOST),
        datum(Row::read(2, 0)),
    ];
    let hosts = [HOST, QUEUE, HOST];
    vec![
        // A private read is carried to the host, and a write to nowhere.
        Table::with_sorts(
            &sorts,
            &carried(Row::read(0, INITIAL).private()),
            &[[1, 2], [2, 3], [3, 4]],
        ),
        Table::with_sorts(&sorts, &carried(Row::write(0)), &[[1, 2], [2, 3]]),
        // Nothing makes visible.
        Table::with_sorts(&hosts, &seen, &[[0, 1], [1, 2]]),
    ]
}

fn numbers(values: &[u64]) -> Vec<Argument> {
    values
        .iter()
        .map(|value| Argument::Number(*value))
        .collect()
}

fn case(questions: Vec<(&'static str, Vec<Argument>)>) -> Case {
    let question = |(function, arguments)| Question {
        function,
        arguments,
    };
    Case {
        table: Vec::new(),
        questions: questions.into_iter().map(question).collect(),
    }
}

fn asked(table: &Table) -> Case {
    let mut questions = Vec::new();
    for chains in [0, 1] {
        let lent = |numbers| {
            let table = Argument::Bytes(table.bytes());
            let lent = Argument::Halves(vec![2; numbers]);
            vec![
                table,
                Argument::Number(chains),
                Argument::Words(vec![1; 8192]),
                lent,
            ]
        };
        questions.push(("stramashly_check", lent(256)));
        questions.push(("stramashly_fill", lent(128)));
        questions.push(("stramashly_report", [lent(256), vec![share()]].concat()));
    }
    case(questions)
}

/// Steps from a moment to itself, by synchronizes-with.
fn itself() -> Case {
    let rmw = |agent: u8, source, rank| Row::rmw(agent, source, rank).order(3, 1);
    let round = Table::of_one_workgroup(2, &[rmw(0, 1, 1).make_available(), rmw(1, 0, 2)]);
    let ahead = [
        flag(Row::atomic_read(0, 2), 0),
        Row::barrier(0, 3, 1).scope(2),
        flag(Row::atomic_write(0, 1), 0),
    ];
    let ahead = Table::of_one_workgroup(1, &ahead);
    let read = |table: &Table, ends: [u64; 2], steps: [u16; 2]| {
        let mut arguments = vec![Argument::Bytes(table.bytes())];
        arguments.extend(numbers(&[ends[0], ends[1], 1]));
        arguments.push(Argument::Halves(steps.to_vec()));
        ("stramashly_accepts", arguments)
    };
    case(vec![
        read(&round, [0, 1], [1025, 513]),
        read(&ahead, [1, 4], [1028, 516]),
    ])
}

/// A first piece that has all the rows there may be, and parts that just fit.
fn whole_limits() -> Case {
    let rows: Vec<Row> = (0..128).map(|_| datum(Row::read(0, INITIAL))).collect();
    let full = Argument::Bytes(Table::of_one_workgroup(2, &rows).bytes());
    let small = Table::of_one_workgroup(1, &[datum(Row::write(0))]).bytes();
    let both = vec![full, Argument::Bytes(Vec::new())];
    let read = vec![
        Argument::Bytes(small),
        Argument::Halves(vec![2; 128]),
        Argument::Bytes(vec![3; 2048]),
        Argument::Halves(vec![2; 128]),
    ];
    case(vec![(COUNT_BOTH, both), ("stramashly_read", read)])
}

/// Pieces of which the second would be a first one, and the first a second.
fn turned_pieces() -> Case {
    let row = [datum(Row::write(0))];
    let [first, second] = [4, 1].map(|agents| Table::of_one_workgroup(agents, &row).bytes());
    let pieces = vec![Argument::Bytes(first), Argument::Bytes(second)];
    let asked = [pieces, numbers(&[0])].concat();
    case(vec![("stramashly_row2", asked)])
}
