//! Agents of two workgroups and more: what they hand over goes by atomics.

use super::{Builder, Scenario};
use tables::builder::{classes, scope};
use tables::{Build, Row, INITIAL};

const APART: [[u16; 3]; 2] = [[0, 0, 0], [0, 1, 0]];
const DATA: u8 = 16;

pub fn all(has_places: bool) -> Vec<Scenario> {
    let mut scenarios = Vec::new();
    for bug in HAND_OVERS {
        scenarios.push(hand_over(bug, has_places));
    }
    for bug in LOCKS {
        scenarios.push(ladder(3, bug, has_places));
    }
    for bug in &LOCKS[..3] {
        scenarios.push(ladder(32, bug, has_places));
    }
    for bug in ["no wait for the tail", "relaxed head", "no make-visible"] {
        scenarios.push(ring(bug, has_places));
    }
    scenarios.push(seqlock(1, has_places));
    scenarios.push(seqlock(2, has_places));
    scenarios
}

const HAND_OVERS: [&str; 10] = [
    "no make-available",
    "no make-visible",
    "private write",
    "private read",
    "narrow release",
    "narrow acquire",
    "release names another class",
    "acquire names another class",
    "relaxed store",
    "relaxed load",
];

fn flag(row: Row) -> Row {
    row.at(64, 4).reference(2).scope(scope::FAMILY)
}

/// The row with what a bug of this name leaves out.
fn spoilt(row: Row, bug: &str) -> Row {
    let is_release = row.order & 2 != 0;
    let is_acquire = row.order & 1 != 0;
    let without = |bit: u8| Row {
        flags: row.flags & !bit,
        ..row
    };
    let relaxed = Row {
        order: 0,
        classes: 0,
        flags: 1,
        ..row
    };
    match bug {
        "no make-available" if is_release => without(2),
        "no make-visible" if is_acquire => without(4),
        "private write" if row.is_plain() && row.writes() => row.private(),
        "private read" if row.is_plain() && row.reads() => row.private(),
        "narrow release" | "narrow unlock" if is_release => row.scope(scope::WORKGROUP),
        "narrow acquire" if is_acquire => row.scope(scope::WORKGROUP),
        "release names another class" if is_release => row.release(classes::WORKGROUP),
        "acquire names another class" if is_acquire => row.acquire(classes::WORKGROUP),
        "relaxed store" | "relaxed unlock" | "relaxed head" if is_release => relaxed,
        "relaxed load" | "relaxed lock" if is_acquire => relaxed,
        _ => row,
    }
}

/// A slot of four words, written, handed over by a flag and read.
fn hand_over(bug: &str, has_places: bool) -> Scenario {
    let name = format!("hand-over, {bug}");
    let mut run = Builder::new(&name, &APART, has_places);
    let write = run.push(spoilt(Row::write(0).at(0, DATA), bug), 10);
    let release = flag(Row::atomic_write(0, 1)).release(classes::UNIFORM);
    let release = run.push(spoilt(release.make_available(), bug), 11);
    let acquire = flag(Row::atomic_read(1, release)).acquire(classes::UNIFORM);
    run.push(spoilt(acquire.make_visible(), bug), 20);
    run.push(spoilt(Row::read(1, write).at(0, DATA), bug), 21);
    run.scenario()
}

const LOCKS: [&str; 6] = [
    "relaxed unlock",
    "relaxed lock",
    "no make-available",
    "no make-visible",
    "narrow unlock",
    "private write",
];

/// A spinlock that agents take in turn around a read and a write. Without
/// places one agent's row is wrong, in the middle; with them the line is.
pub fn ladder(agents: u16, bug: &str, has_places: bool) -> Scenario {
    let name = format!("lock of {agents}, {bug}");
    let workgroups: Vec<[u16; 3]> = (0..agents).map(|agent| [0, agent, 0]).collect();
    let mut run = Builder::new(&name, &workgroups, has_places);
    let (mut lock, mut data) = (INITIAL, INITIAL);
    for turn in 0..agents {
        let agent = turn as u8;
        let is_wrong = has_places || turn == agents / 2;
        let bug = if is_wrong { bug } else { "" };
        let acquire = flag(Row::rmw(agent, lock, 2 * turn + 1)).acquire(classes::UNIFORM);
        run.push(spoilt(acquire.make_visible(), bug), 5);
        run.push(spoilt(Row::read(agent, data), bug), 6);
        data = run.push(spoilt(Row::write(agent), bug), 7);
        let release = flag(Row::atomic_write(agent, 2 * turn + 2)).release(classes::UNIFORM);
        lock = run.push(spoilt(release.make_available(), bug), 8);
    }
    run.scenario()
}

/// A ring of two slots: the producer puts in three values, and has to wait
/// for the tail before it takes a slot again.
fn ring(bug: &str, has_places: bool) -> Scenario {
    let name = format!("ring, {bug}");
    let mut run = Builder::new(&name, &APART, has_places);
    let slot = |row: Row, turn: u16| row.at(4 * (turn % 2), 4);
    let tail = |row: Row| row.at(68, 4).reference(3).scope(scope::FAMILY);
    let mut heads = Vec::new();
    let mut writes = Vec::new();
    for turn in 0..2 {
        writes.push(run.push(slot(Row::write(0), turn), 12));
        let head = flag(Row::atomic_write(0, turn + 1)).release(classes::UNIFORM);
        heads.push(run.push(spoilt(head.make_available(), bug), 13));
    }
    let mut tails = Vec::new();
    for turn in 0..2 {
        let head = flag(Row::atomic_read(1, heads[usize::from(turn)])).acquire(classes::UNIFORM);
        run.push(spoilt(head.make_visible(), bug), 20);
        run.push(slot(Row::read(1, writes[usize::from(turn)]), turn), 21);
        let free = tail(Row::atomic_write(1, turn + 1)).release(classes::UNIFORM);
        tails.push(run.push(free.make_available(), 22));
    }
    let waited = match bug {
        "no wait for the tail" => INITIAL,
        _ => tails[0],
    };
    let wait = tail(Row::atomic_read(0, waited)).acquire(classes::UNIFORM);
    run.push(wait.make_visible(), 11);
    run.push(slot(Row::write(0), 2), 12);
    run.scenario()
}

/// A seqlock over plain words: a reader that sees the same even count before
/// and after takes what it read, while a writer may be at work.
fn seqlock(words: u16, has_places: bool) -> Scenario {
    let name = format!("seqlock of {words}");
    let mut run = Builder::new(&name, &APART, has_places);
    run.push(flag(Row::rmw(0, INITIAL, 1)).acquire(classes::UNIFORM), 30);
    for word in 0..words {
        run.push(Row::write(0).at(4 * word, 4), 31 + u32::from(word));
    }
    let end = flag(Row::atomic_write(0, 2)).release(classes::UNIFORM);
    run.push(end.make_available(), 35);
    let begin = flag(Row::atomic_read(1, INITIAL)).acquire(classes::UNIFORM);
    run.push(begin.make_visible(), 40);
    for word in 0..words {
        let read = Row::read(1, INITIAL).at(4 * word, 4);
        run.push(read, 41 + u32::from(word));
    }
    let again = flag(Row::atomic_read(1, INITIAL));
    run.push(again, 45);
    run.scenario()
}
