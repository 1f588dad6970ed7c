//! Tables with few places and many rows a place: at most ten of data and four of
//! atomics, which agents hand to each other.

use crate::builder::classes::UNIFORM;
use crate::builder::{order, scope, Build, Row, Table, BLANK, INITIAL};
use crate::generator::Size;
use crate::random::Random;

/// The references of atomics begin here, those of data at 0.
const ATOMICS: u16 = 100;
/// Where data begins, behind the atomics.
const DATA: u16 = 64;

/// What becomes of a run in which each agent waits for its turn.
#[derive(Clone, Copy, PartialEq, Eq)]
enum Plan {
    /// Nothing: it is race-free.
    Kept,
    /// Turns are taken without a hand-over now and then, and flags are left out.
    Loose,
    /// The same, and some readers have another source.
    Stale,
}

/// A table for a check: a third each is race-free, racing or inconsistent, as
/// nearly as chance has it.
pub fn crowded(random: &mut Random, size: Size) -> Table {
    let plan = random.pick(&[Plan::Kept, Plan::Loose, Plan::Stale]);
    let mut run = Run::new(random, plan);
    let count = random.between(size.least, size.most);
    while run.rows.len() < count {
        run.turn(random, count);
    }
    if plan == Plan::Stale {
        run.change_sources(random);
    }
    Table::new(&run.agents, &run.rows)
}

/// The same with every plain read blank.
pub fn crowded_fillable(random: &mut Random, size: Size) -> Table {
    let mut table = crowded(random, size);
    for row in &mut table.rows {
        if row.is_plain() && row.reads() {
            row.source = BLANK;
        }
    }
    table
}

struct Run {
    plan: Plan,
    agents: Vec<[u16; 3]>,
    /// Start and length of each place of data.
    data: Vec<(u16, u8)>,
    /// The last writer and its rank of each atomic.
    atomics: Vec<(u16, u16)>,
    holder: u8,
    rows: Vec<Row>,
}

impl Run {
    fn new(random: &mut Random, plan: Plan) -> Run {
        let agents: u16 = random.pick(&[4, 8, 12]);
        let mut start = DATA;
        let data = (0..random.between(6, 10)).map(|_| {
            let length = random.pick(&[4, 4, 8, 16]);
            let place = (start, length);
            // Some places share their last bytes with the next.
            start += u16::from(length) - if random.percent(20) { 2 } else { 0 };
            place
        });
        Run {
            plan,
            agents: (0..agents).map(|a| [0, a / 4, a / 2 % 2]).collect(),
            data: data.collect(),
            atomics: vec![(INITIAL, 0); random.between(1, 4)],
            holder: 0,
            rows: Vec::new(),
        }
    }

    /// The holder's rows, then it hands over to another agent.
    fn turn(&mut self, random: &mut Random, count: usize) {
        for _ in 0..random.between(1, 5) {
            if self.rows.len() < count {
                self.access(random);
            }
        }
        if self.plan != Plan::Kept && random.percent(30) {
            self.holder = random.below(self.agents.len()) as u8;
        } else if self.rows.len() + 3 <= count {
            self.hand_over(random);
        }
    }

    /// A plain read of what was written last, or a plain write.
    fn access(&mut self, random: &mut Random) {
        let place = random.below(self.data.len());
        let (start, length) = self.data[place];
        let half = length >= 8 && random.percent(15);
        let length = if half { length / 2 } else { length };
        let bare = self.plan != Plan::Kept && random.percent(25);
        let scope = match self.plan {
            Plan::Kept => scope::DEVICE,
            _ => random.pick(&[scope::DEVICE, scope::DEVICE, scope::WORKGROUP]),
        };
        let row = if random.percent(35) {
            let row = Row::write(self.holder);
            if bare {
                row
            } else {
                row.make_available().scope(scope)
            }
        } else {
            let Some(source) = self.last_writer(start, length) else {
                return;
            };
            let row = Row::read(self.holder, source);
            if bare {
                row
            } else {
                row.make_visible().scope(scope)
            }
        };
        self.rows
            .push(row.at(start, length).reference(place as u16));
    }

    /// The last row that wrote any of the bytes, if it wrote them all; the
    /// initial value where there is none.
    fn last_writer(&self, start: u16, length: u8) -> Option<u16> {
        let end = start + u16::from(length);
        let meets = |row: &Row| {
            let last = row.start + u16::from(row.length);
            row.is_plain() && row.writes() && row.start < end && start < last
        };
        let Some(place) = self.rows.iter().rposition(meets) else {
            return Some(INITIAL);
        };
        let reader = Row::read(0, INITIAL).at(start, length);
        self.rows[place].covers(reader).then_some(place as u16)
    }

    /// A release of an atomic, by a write or a read-modify-write, and another
    /// agent's acquire of it.
    fn hand_over(&mut self, random: &mut Random) {
        let atomic = match self.plan {
            Plan::Kept => 0,
            _ => random.below(self.atomics.len()),
        };
        let (last, rank) = self.atomics[atomic];
        let place = |row: Row| {
            row.at(4 * atomic as u16, 4)
                .reference(ATOMICS + atomic as u16)
        };
        let release = if last != INITIAL && random.percent(30) {
            let row = Row::rmw(self.holder, last, rank + 1).order(order::BOTH, UNIFORM);
            row.make_available().make_visible()
        } else {
            if random.percent(30) {
                let barrier = Row::barrier(self.holder, order::BOTH, UNIFORM);
                self.rows.push(barrier.make_available().make_visible());
            }
            let row = Row::atomic_write(self.holder, rank + 1).release(UNIFORM);
            row.make_available()
        };
        let writer = self.rows.len() as u16;
        self.rows.push(place(release));
        self.atomics[atomic] = (writer, rank + 1);
        self.holder = random.below(self.agents.len()) as u8;
        let acquire = Row::atomic_read(self.holder, writer).acquire(UNIFORM);
        self.rows.push(place(acquire.make_visible()));
    }

    /// Three readers get any writer that has their bytes for a source.
    fn change_sources(&mut self, random: &mut Random) {
        let is_read = |place: &usize| self.rows[*place].reads() && !self.rows[*place].writes();
        let readers: Vec<usize> = (0..self.rows.len()).filter(is_read).collect();
        for _ in 0..readers.len().min(3) {
            let reader = random.pick(&readers);
            let row = self.rows[reader];
            let fits = |place: &usize| {
                let writer = self.rows[*place];
                *place != reader && writer.writes() && writer.covers(row)
            };
            let writers: Vec<usize> = (0..self.rows.len()).filter(fits).collect();
            if !writers.is_empty() {
                self.rows[reader].source = random.pick(&writers) as u16;
            }
        }
    }
}
