//! Questions that generated tables rarely lead to: rows of every form, numbers
//! at their limits, and definitions that are asked for by themselves.

use crate::corpus::{asked, of_writer, share, with_dependencies, Case};
use crate::question::*;
use tables::{Build, Random, Row, Table, BLANK};

pub fn edges(random: &mut Random) -> Vec<Case> {
    let mut cases = vec![shares(), lowest_shared()];
    cases.extend((0..14).flat_map(|kind| forms(random, kind)));
    cases.extend(ranks(random));
    cases.push(limits());
    cases.extend(headers(random));
    cases.extend(large_numbers(random));
    cases.extend(controls(random));
    cases.push(round());
    cases.push(short_buffers());
    cases.extend(writers(random));
    let tables = [late_writer(), two_writers(), overwritten_and_racing()];
    cases.extend(
        tables
            .iter()
            .chain(&tables)
            .map(|table| asked(random, table.bytes())),
    );
    cases
}

/// A blank whose source is written before it; a writer that comes after it
/// stands first in the table.
fn late_writer() -> Table {
    let flag = |row: Row| row.at(16, 4).reference(2).scope(2);
    let rows = [
        flag(Row::atomic_read(0, 4)).acquire(1).make_visible(),
        Row::write(0).at(0, 4).reference(1),
        Row::write(1).at(0, 4).reference(1),
        Row::read(1, BLANK).at(0, 4).reference(1),
        flag(Row::atomic_write(1, 1)).release(1).make_available(),
    ];
    Table::of_one_workgroup(2, &rows)
}

/// A read of what was overwritten before it, and two writes that race.
fn overwritten_and_racing() -> Table {
    let datum = |row: Row| row.at(0, 4).reference(1);
    let other = |agent: u8| Row::write(agent).at(8, 4).reference(2);
    let rows = [
        datum(Row::write(0)),
        datum(Row::write(0)),
        datum(Row::read(0, 0)),
        other(0),
        other(1),
    ];
    Table::of_one_workgroup(2, &rows)
}

/// A blank that comes after two atomic writers, which only their ranks order.
fn two_writers() -> Table {
    let atomic = |row: Row, start, reference| row.at(start, 4).reference(reference).scope(2);
    let sender = |agent: u8, rank| {
        let flag = atomic(
            Row::atomic_write(agent, 1),
            16 + 4 * u16::from(agent),
            2 + u16::from(agent),
        );
        [
            atomic(Row::atomic_write(agent, rank), 32, 5),
            Row::barrier(agent, 2, 1).scope(2).make_available(),
            flag,
        ]
    };
    let mut rows = [sender(0, 1), sender(1, 2)].concat();
    rows.push(atomic(Row::atomic_read(2, 2), 16, 2));
    rows.push(atomic(Row::atomic_read(2, 5), 20, 3));
    rows.push(Row::barrier(2, 1, 1).scope(2).make_visible());
    rows.push(Row::read(2, BLANK).at(32, 4).reference(5));
    Table::of_one_workgroup(3, &rows)
}

/// Control barriers of two agents, with any execution scopes, and accesses of
/// the reference 0 beside them.
fn controls(random: &mut Random) -> Vec<Case> {
    let places = [[0, 0, 0], [0, 0, 1], [0, 1, 0], [1, 0, 0]];
    let one = |random: &mut Random| {
        let barrier = |random: &mut Random, agent: u8| {
            let instance = random.pick(&[7, 7, 7, 8, 6]);
            Row::control_barrier(agent, random.pick(&[0, 1, 2, 2, 3, 4]), instance)
        };
        let mut rows = vec![barrier(random, 0), barrier(random, 1)];
        if random.percent(40) {
            let access = Row::write(0).reference(0).class(random.pick(&[0, 2, 3]));
            rows.insert(random.below(3), access);
        }
        let agents = [random.pick(&places), random.pick(&places)];
        open(Table::new(&agents, &rows).bytes())
    };
    let case = |_| alone((0..30).map(|_| one(random)).collect());
    (0..6).map(case).collect()
}

/// Two RMWs that read each other, so that a chain may be of any length.
fn round() -> Case {
    let rmw = |agent: u8, source, rank| Row::rmw(agent, source, rank).order(3, 1);
    let table = Table::of_one_workgroup(2, &[rmw(0, 1, 1).make_available(), rmw(1, 0, 2)]).bytes();
    let steps: Vec<u16> = (0..386)
        .map(|at| if at == 0 { 1025 } else { [513, 516][at % 2] })
        .collect();
    let mut questions = Vec::new();
    for (classes, count) in [0, 1, 2, 3, 4, 16, 17]
        .map(|classes| (classes, 2))
        .into_iter()
        .chain([0, 1, 3, 190, 191, 381, 382, 383, 384, 385].map(|count| (1, count)))
    {
        let second = [4, 1][count % 2];
        let mut arguments = vec![Argument::Bytes(table.clone())];
        arguments.extend(numbers(&[0, second, classes]));
        arguments.push(Argument::Halves(steps[..count].to_vec()));
        questions.push(Question {
            function: "stramashly_accepts",
            arguments,
        });
        // Synchronizes-with alone, which an empty class set would let pass.
        let mut arguments = vec![Argument::Bytes(table.clone())];
        arguments.extend(numbers(&[1, 4, classes]));
        arguments.push(Argument::Halves(vec![516]));
        questions.push(Question {
            function: "stramashly_accepts",
            arguments,
        });
    }
    alone(questions)
}

/// Buffers that are too short for pieces that are no table: 11 comes first.
fn short_buffers() -> Case {
    let table = Table::new(&[[0, 0, 0]], &[Row::write(0)]).bytes();
    let mut questions = Vec::new();
    for second in [vec![0; 7], vec![0; 16 * 128], Vec::new()] {
        for (work, buffer) in [(8191, 400), (8192, 100), (8192, 400), (0, 0)] {
            let pieces = [
                Argument::Bytes(table.clone()),
                Argument::Bytes(second.clone()),
            ];
            let lent = [
                Argument::Words(vec![1; work]),
                Argument::Halves(vec![2; buffer]),
            ];
            for (function, between) in [
                ("stramashly_check2", numbers(&[0])),
                ("stramashly_fill2", numbers(&[1])),
                ("stramashly_report2", numbers(&[0])),
                ("stramashly_derive2", numbers(&[1, 4])),
            ] {
                let mut arguments = [&pieces[..], &between, &lent].concat();
                if function == "stramashly_report2" {
                    arguments.push(share());
                }
                questions.push(Question {
                    function,
                    arguments,
                });
            }
        }
    }
    alone(questions)
}

/// Values that break several rules at once: which is told first.
fn writers(random: &mut Random) -> Vec<Case> {
    let row = Table::new(&[], &[Row::write(0)]).bytes().split_off(8);
    let one = |random: &mut Random| {
        let version = random.pick(&[0, 1, 2, 3, 3, 3, 4]);
        let agents = random.pick(&[0, 1, 31, 32, 33, 256]);
        let mut places = [0, 0, 0, 0].repeat(agents);
        if let (true, Some(last)) = (random.percent(50), places.last_mut()) {
            *last = random.pick(&[1, 2, 3, 65535]);
        }
        let rows = row.repeat(random.pick(&[0, 1, 1, 1, 129]));
        let pairs = [0, 0].repeat(random.pick(&[0, 0, 1, 64, 65, 300]));
        let room = random.pick(&[0, 100, 700, 2600]);
        let values = [
            Argument::Halves(places),
            Argument::Bytes(rows),
            Argument::Halves(pairs),
        ];
        let arguments = [
            &numbers(&[version])[..],
            &values,
            &[Argument::Bytes(vec![3; room])],
        ]
        .concat();
        Question {
            function: "stramashly_write",
            arguments,
        }
    };
    let case = |_| alone((0..25).map(|_| one(random)).collect());
    (0..6).map(case).collect()
}

/// Numbers of two bytes that need both, in every place that has such.
fn large_numbers(random: &mut Random) -> Vec<Case> {
    let places = [
        [65535, 65281, 256],
        [511, 65280, 65535],
        [65535, 65281, 257],
    ];
    let rows = [
        Row::write(0).at(65520, 16).reference(65535),
        Row::atomic_write(1, 65535).at(65528, 8).reference(65281),
        Row::atomic_write(0, 65280).at(256, 4).reference(511),
        Row::rmw(2, 1, 65281).at(65528, 8).reference(65281),
        Row::read(1, 0).at(65521, 2).reference(65280),
    ];
    let plain = Table::new(&places, &rows).bytes();
    let counted = Table::new(&places, &rows).counted().bytes();
    let hosted = (0..6).filter_map(|_| with_dependencies(random, &plain));
    let tables: Vec<Vec<u8>> = [plain.clone(), counted].into_iter().chain(hosted).collect();
    let case = |table: Vec<u8>| {
        let mut case = asked(random, table);
        for _ in 0..12 {
            of_writer(random, &case.table, &mut case.questions);
        }
        case
    };
    tables.into_iter().map(case).collect()
}

fn alone(questions: Vec<Question>) -> Case {
    Case {
        table: Vec::new(),
        questions,
    }
}

fn numbers(values: &[u64]) -> Vec<Argument> {
    values
        .iter()
        .map(|value| Argument::Number(*value))
        .collect()
}

fn open(table: Vec<u8>) -> Question {
    Question {
        function: "stramashly_open",
        arguments: vec![Argument::Bytes(table)],
    }
}

fn check(table: Vec<u8>) -> Question {
    let lent = [
        Argument::Words(vec![1; 8192]),
        Argument::Halves(vec![2; 256]),
    ];
    let mut arguments = vec![Argument::Bytes(table), Argument::Number(0)];
    arguments.extend(lent);
    Question {
        function: "stramashly_check",
        arguments,
    }
}

/// Every scope of every two of some agents, hosts and queues among them.
fn shares() -> Case {
    let places = vec![
        [0, 0, 0, 0],
        [0, 0, 1, 0],
        [0, 1, 0, 0],
        [1, 0, 0, 0],
        [1, 0, 0, 1],
        [0, 0, 0, 1],
        [0, 0, 0, 2],
        [1, 0, 0, 0],
    ];
    let mut questions = Vec::new();
    for scope in 0..6 {
        for (a, b) in (0..9).flat_map(|a| (0..9).map(move |b| (a, b))) {
            let mut arguments = vec![Argument::Places(places.clone())];
            arguments.extend(numbers(&[scope, a, b]));
            questions.push(Question {
                function: SHARES,
                arguments,
            });
        }
    }
    alone(questions)
}

/// Two extents, of no bytes too.
fn lowest_shared() -> Case {
    let mut questions = Vec::new();
    for (a, m) in [(0, 0), (0, 4), (3, 1), (4, 16), (7, 2), (65_530, 16)] {
        for (b, n) in [
            (0, 0),
            (0, 4),
            (3, 0),
            (3, 1),
            (5, 1),
            (4, 8),
            (8, 3),
            (19, 1),
            (20, 1),
            (65_545, 2),
        ] {
            questions.push(Question {
                function: LOWEST_SHARED,
                arguments: numbers(&[a, m, b, n]),
            });
        }
    }
    alone(questions)
}

/// A row of a kind that may be as it must, and mostly isn't.
fn form(random: &mut Random, kind: u8) -> Row {
    let agent = match kind {
        0..=6 => random.pick(&[0, 0, 0, 0, 0, 0, 1, 2]),
        _ => random.pick(&[2, 2, 2, 2, 2, 2, 0, 1]),
    };
    let mut row = match kind {
        0 => Row::read(agent, 65535),
        1 => Row::write(agent),
        2 => Row::atomic_read(agent, 65535),
        3 => Row::atomic_write(agent, 1),
        4 => Row::rmw(agent, 65535, 1),
        5 => Row::barrier(agent, 2, 1),
        6 => Row::control_barrier(agent, 2, 7),
        _ => Row::queue(agent, kind),
    };
    if kind < 2 {
        row.length = random.pick(&[1, 2, 4, 15, 16]);
        row.start = random.pick(&[row.start, row.start, 65520, 65535]);
    }
    if (2..7).contains(&kind) && random.percent(60) {
        let order = random.pick(&[0, 1, 2, 3]);
        (row.order, row.classes) = (
            order,
            if order == 0 {
                0
            } else {
                random.pick(&[1, 2, 15])
            },
        );
    }
    for _ in 0..random.pick(&[0, 1, 1, 1, 2]) {
        change(random, &mut row);
    }
    row
}

fn change(random: &mut Random, row: &mut Row) {
    match random.below(12) {
        0 => row.order = random.pick(&[0, 1, 2, 3, 4]),
        1 => row.scope = random.pick(&[0, 1, 4, 5]),
        2 => row.classes = random.pick(&[0, 1, 15, 16]),
        3 | 4 => row.flags = random.pick(&[0, 1, 2, 3, 4, 5, 6, 7, 8]),
        5 => row.class = random.pick(&[0, 1, 3, 4, 5]),
        6 => row.length = random.pick(&[0, 1, 2, 3, 4, 8, 16, 17]),
        7 => row.start = random.pick(&[0, 1, 2, 4, 8, 12, 65520, 65528, 65532, 65535]),
        8 => row.reference = random.pick(&[0, 1, 65535]),
        9 => row.source = random.pick(&[0, 1, 2, 65534, 65535]),
        10 => row.rank = random.pick(&[0, 1, 65535]),
        _ => row.agent = random.pick(&[0, 1, 2, 3, 255]),
    }
}

/// Tables of one or two rows of a kind, thirty to a case.
fn forms(random: &mut Random, kind: u8) -> Vec<Case> {
    let case = |random: &mut Random| {
        let one = |random: &mut Random| {
            let mut rows = vec![form(random, kind)];
            if random.percent(40) {
                let kind = random.pick(&[0, 1, 2, 3, 4, 5, 6, kind, kind]);
                rows.push(form(random, kind));
            }
            let mut bytes = Table::with_sorts(&[0, 1, 2], &rows, &[]).bytes();
            // Without hosts there are other agents and no dependencies.
            if random.percent(25) {
                bytes = Table::new(&[[0, 0, 0]; 3], &rows).bytes();
            }
            open(bytes)
        };
        alone((0..30).map(|_| one(random)).collect())
    };
    (0..8).map(|_| case(random)).collect()
}

/// Three writers of one location with ranks near the limits, in every version.
fn ranks(random: &mut Random) -> Vec<Case> {
    let near = [
        0, 1, 2, 20_000, 32_767, 32_768, 32_769, 45_000, 65_534, 65_535,
    ];
    let one = |random: &mut Random| {
        let scope = random.pick(&[0, 0, 2, 4]);
        let row = |agent: u8, rank: u16| Row::atomic_write(agent, rank).scope(scope);
        let mut rows: Vec<Row> = (0..3).map(|agent| row(agent, random.pick(&near))).collect();
        let place = random.below(3);
        match random.below(8) {
            0 => rows[place].start = 4,
            1 => rows[place].reference = 9,
            3 => rows[place].length = 8,
            4 => rows[place] = Row::atomic_read(place as u8, 65535).scope(scope),
            2 => rows[place] = Row::rmw(place as u8, 65535, random.pick(&near)).scope(scope),
            _ => (),
        }
        let mut table = Table::new(&[[0, 0, 0], [0, 0, 1], [0, 1, 0]], &rows);
        if random.percent(70) {
            table = table.counted();
        }
        let bytes = table.bytes();
        [open(bytes.clone()), check(bytes)]
    };
    let mut case = |_: u32| alone((0..12).flat_map(|_| one(random)).collect());
    (0..16).map(&mut case).collect()
}

/// As many agents, rows and dependencies as there may be, and one more.
fn limits() -> Case {
    let mut questions = Vec::new();
    for agents in [31, 32, 33] {
        let places = vec![[0, 0, 0]; agents];
        questions.push(open(
            Table::new(&places, &[Row::write(30), Row::write(31)]).bytes(),
        ));
    }
    for count in [1, 63, 64, 65, 255, 256] {
        let pairs = vec![[0, 1]; count];
        let rows = [Row::write(0), Row::write(0)];
        questions.push(open(Table::with_sorts(&[0], &rows, &pairs).bytes()));
    }
    for rows in [127, 128, 129] {
        let rows = vec![Row::write(0); rows];
        questions.push(open(Table::new(&[[0, 0, 0]], &rows).bytes()));
    }
    alone(questions)
}

/// A first piece with one row after it.
fn pieces(first: Vec<u8>) -> [Question; 2] {
    let row = Table::new(&[], &[Row::write(0)]).bytes().split_off(8);
    let both = || vec![Argument::Bytes(first.clone()), Argument::Bytes(row.clone())];
    let lent = [
        Argument::Number(0),
        Argument::Words(vec![1; 8192]),
        Argument::Halves(vec![2; 256]),
    ];
    let check = [both(), lent.to_vec()].concat();
    let row = [both(), numbers(&[1])].concat();
    [("stramashly_check2", check), ("stramashly_row2", row)].map(|(function, arguments)| Question {
        function,
        arguments,
    })
}

/// Every byte of two headers with every bit changed, lengths that don't fit.
fn headers(random: &mut Random) -> Vec<Case> {
    let rows = [Row::write(0), Row::read(1, 0)];
    let tables = [
        Table::new(&[[0, 0, 0], [0, 0, 1]], &rows).bytes(),
        Table::with_sorts(&[0, 1, 2], &rows, &[[0, 1], [1, 0]]).bytes(),
    ];
    let mut cases = Vec::new();
    for table in tables {
        let mut questions = Vec::new();
        let places = (0..32).chain(table.len() - 10..table.len());
        for (place, bit) in places.flat_map(|place| (0..8).map(move |bit| (place, bit))) {
            let mut changed = table.clone();
            changed[place] ^= 1 << bit;
            questions.push(open(changed.clone()));
            questions.extend(pieces(changed));
        }
        for length in [
            0,
            3,
            7,
            8,
            9,
            12,
            table.len() - 1,
            table.len() + 1,
            table.len() + 16,
        ] {
            let mut changed = table.clone();
            changed.resize(length, random.word() as u8);
            questions.push(open(changed.clone()));
            questions.extend(pieces(changed));
        }
        cases.extend(questions.chunks(40).map(|part| alone(part.to_vec())));
    }
    cases
}
