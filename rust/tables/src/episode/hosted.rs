//! Episodes of hosts, queues and shaders: data that goes from one party to
//! the next by way of the host's and the device's domain.

use super::{overlap, Ground, Place};
use crate::builder::{kind, order, scope, sort, Build, Row, INITIAL};
use crate::random::Random;

/// The agents of a table by their sort.
pub(crate) struct Cast {
    pub shaders: Vec<u8>,
    pub hosts: Vec<u8>,
    pub queues: Vec<u8>,
}

impl Cast {
    pub fn new(sorts: &[u16]) -> Cast {
        let of = |sort: u16| {
            let agents = 0..sorts.len() as u8;
            agents
                .filter(|agent| sorts[usize::from(*agent)] == sort)
                .collect()
        };
        Cast {
            shaders: of(sort::SHADER),
            hosts: of(sort::HOST),
            queues: of(sort::QUEUE),
        }
    }
}

/// One episode in the making.
struct Episode<'a> {
    random: &'a mut Random,
    cast: &'a Cast,
    rows: Vec<Row>,
    dependencies: Vec<[u16; 2]>,
    /// The bytes, by the reference of hosts and by that of shaders.
    data: [Place; 2],
    /// Most queue operations are of this agent.
    queue: u8,
}

/// Someone who uses the data, and the rows of its use.
struct Party {
    agent: u8,
    is_host: bool,
    uses: Vec<usize>,
}

/// An episode of one of several shapes; the dependencies count its own rows.
pub(crate) fn hosted_episode(
    random: &mut Random,
    ground: &mut Ground,
    cast: &Cast,
) -> (Vec<Row>, Vec<[u16; 2]>) {
    let length = random.pick(&[1, 4, 4, 8, 16]);
    ground.align(length);
    let by_host = ground.place(random, length);
    let mut by_shader = by_host;
    if random.percent(60) {
        by_shader = ground.place(random, length);
        by_shader.start = by_host.start;
    }
    let mut episode = Episode {
        queue: random.pick(&cast.queues),
        random,
        cast,
        rows: Vec::new(),
        dependencies: Vec::new(),
        data: [by_host, by_shader],
    };
    match episode.random.below(100) {
        0..=64 => episode.pass(),
        65..=84 => episode.read_then_write(),
        _ => episode.stay_with_one_host(),
    }
    (episode.rows, episode.dependencies)
}

impl Episode<'_> {
    fn push(&mut self, row: Row) -> usize {
        self.rows.push(row);
        self.rows.len() - 1
    }

    fn depend(&mut self, first: usize, second: usize) {
        self.dependencies.push([first as u16, second as u16]);
    }

    fn party(&mut self) -> Party {
        let is_host = self.random.percent(50);
        let agents = if is_host {
            &self.cast.hosts
        } else {
            &self.cast.shaders
        };
        Party {
            agent: self.random.pick(agents),
            is_host,
            uses: Vec::new(),
        }
    }

    /// One writes, and it is carried to the next, two or three in all: uploads,
    /// read-backs, and what stays in one domain.
    fn pass(&mut self) {
        let mut from = self.party();
        for _ in 0..self.random.pick(&[1, 1, 2]) {
            let row = self.write(&from);
            from.uses.push(row);
        }
        for _ in 0..self.random.pick(&[1, 1, 1, 2]) {
            let mut to = self.party();
            let is_read = self.random.percent(70);
            let last = self.carry(&from, &to, is_read);
            self.arrive(last, &mut to, is_read);
            from = to;
        }
    }

    /// The operations of the way, each depending on the one before or after it
    /// in its queue's program order; gives the last of them.
    fn carry(&mut self, from: &Party, to: &Party, is_read: bool) -> usize {
        let available = [kind::AVAILABLE_TO_DEVICE, kind::AVAILABLE_TO_HOST];
        let visible = [kind::VISIBLE_FROM_DEVICE, kind::VISIBLE_FROM_HOST];
        let leaving = [kind::DEVICE_TO_HOST, kind::HOST_TO_DEVICE];
        let mut last = self.leave(from, available[usize::from(from.is_host)]);
        if from.is_host != to.is_host {
            last = self.next(last, leaving[usize::from(from.is_host)]);
        }
        if is_read || self.random.percent(30) {
            last = self.next(last, visible[usize::from(to.is_host)]);
        }
        last
    }

    fn operation(&mut self, kind: u8) -> usize {
        let any = self.random.pick(&self.cast.queues);
        let agent = if self.random.percent(80) {
            self.queue
        } else {
            any
        };
        self.push(Row::queue(agent, kind))
    }

    fn next(&mut self, last: usize, kind: u8) -> usize {
        let next = self.operation(kind);
        let is_one_agent = self.rows[last].agent == self.rows[next].agent;
        if !is_one_agent || self.random.percent(60) {
            self.depend(last, next);
        }
        next
    }

    /// An operation that each use has a dependency to; a shader's may have a
    /// release barrier with one for all.
    fn leave(&mut self, from: &Party, kind: u8) -> usize {
        if !from.is_host && self.random.percent(30) {
            let classes = self.classes_with(self.data[1]);
            let barrier = self.push(Row::barrier(from.agent, order::RELEASE, classes));
            let operation = self.operation(kind);
            self.depend(barrier, operation);
            return operation;
        }
        let operation = self.operation(kind);
        for row in &from.uses {
            self.depend(*row, operation);
        }
        operation
    }

    /// The next party's uses, each depending on the last operation; a shader
    /// may have an acquire barrier for all.
    fn arrive(&mut self, last: usize, to: &mut Party, is_read: bool) {
        let mut after = Some(last);
        if !to.is_host && self.random.percent(30) {
            let classes = self.classes_with(self.data[1]);
            let barrier = self.push(Row::barrier(to.agent, order::ACQUIRE, classes));
            self.depend(last, barrier);
            after = None;
        }
        for _ in 0..self.random.pick(&[1, 1, 2]) {
            let row = if is_read {
                self.read(to)
            } else {
                self.write(to)
            };
            if let Some(last) = after {
                self.depend(last, row);
            }
            to.uses.push(row);
        }
    }

    /// A read, and a write that dependencies lead to from it.
    fn read_then_write(&mut self) {
        let (from, to) = (self.party(), self.party());
        let read = self.read(&from);
        let mut last = read;
        for _ in 0..self.random.pick(&[0, 0, 1, 2]) {
            let kind = self.random.between(7, 12) as u8;
            let next = self.operation(kind);
            self.depend(last, next);
            last = next;
        }
        let write = self.write(&to);
        self.depend(last, write);
    }

    /// Rows of one host, which need no order.
    fn stay_with_one_host(&mut self) {
        let mut host = self.party();
        host.agent = self.random.pick(&self.cast.hosts);
        host.is_host = true;
        for _ in 0..self.random.between(1, 4) {
            if self.random.percent(50) {
                self.write(&host);
            } else {
                self.read(&host);
            }
        }
    }

    fn classes_with(&mut self, place: Place) -> u8 {
        place.class_bit() | self.random.pick(&[0, 0, 1, 15])
    }

    fn write(&mut self, party: &Party) -> usize {
        let place = self.place_of(party);
        let row = place.of(Row::write(party.agent));
        let atomic = place.of(Row::atomic_write(party.agent, self.rows.len() as u16 + 1));
        let is_atomic = !party.is_host && atomic.has_atomic_bytes() && self.random.percent(15);
        let row = if is_atomic {
            atomic
        } else {
            let row = self.maybe_private(row);
            self.maybe_flagged(row, Row::make_available)
        };
        self.push(row)
    }

    /// Reads bytes whose latest write is one row, or that have none.
    fn read(&mut self, party: &Party) -> usize {
        let place = self.place_of(party).part(self.random);
        let mut row = place.of(Row::read(party.agent, INITIAL));
        let latest = (0..self.rows.len())
            .rev()
            .find(|other| self.rows[*other].writes() && self.rows[*other].overlaps(row));
        if let Some(writer) = latest {
            row = overlap(row, self.rows[writer]);
            row.source = writer as u16;
        }
        let row = self.maybe_private(row);
        let row = self.maybe_flagged(row, Row::make_visible);
        self.push(row)
    }

    fn place_of(&self, party: &Party) -> Place {
        self.data[usize::from(!party.is_host)]
    }

    fn maybe_private(&mut self, row: Row) -> Row {
        if self.random.percent(60) {
            row.private()
        } else {
            row
        }
    }

    /// Availability and visibility of its own, which helps nobody here.
    fn maybe_flagged(&mut self, row: Row, flagged: impl Fn(Row) -> Row) -> Row {
        let is_private = row == row.private();
        if is_private || self.random.percent(80) {
            return row;
        }
        let scope = self.random.between(0, usize::from(scope::DEVICE)) as u8;
        flagged(row).scope(scope)
    }
}
