//! Episodes: short runs, nearly all race-free and consistent as they stand.
//!
//! An episode's rows are listed as they ran, every read reading the latest
//! write, so that its sources name earlier rows of the episode.

mod chain;
mod control;
mod hosted;

pub(crate) use hosted::{hosted_episode, Cast};

use crate::builder::{kind, order, scope, Build, Row, INITIAL};
use crate::random::Random;

/// Bytes with the reference and class that they are accessed by.
#[derive(Clone, Copy)]
struct Place {
    start: u16,
    length: u8,
    reference: u16,
    class: u8,
}

impl Place {
    fn class_bit(self) -> u8 {
        1 << self.class
    }

    fn of(self, row: Row) -> Row {
        row.at(self.start, self.length)
            .reference(self.reference)
            .class(self.class)
    }

    /// Some bytes of the place, often all of them.
    fn part(self, random: &mut Random) -> Place {
        if random.percent(50) {
            return self;
        }
        let from = random.below(usize::from(self.length));
        let length = random.between(1, usize::from(self.length) - from);
        Place {
            start: self.start + from as u16,
            length: length as u8,
            ..self
        }
    }
}

/// Hands out bytes and references that no earlier episode has.
#[derive(Clone, Copy)]
pub(crate) struct Ground {
    next_start: u16,
    next_reference: u16,
    next_instance: u16,
}

impl Ground {
    pub fn new(random: &mut Random) -> Ground {
        Ground {
            next_start: random.pick(&[0, 0, 0, 7, 250, 32760]),
            next_reference: random.pick(&[0, 1, 1, 500, 64000]),
            next_instance: random.pick(&[0, 0, 1, 7, 65000]),
        }
    }

    /// An instance of a control barrier that there was not before.
    fn instance(&mut self) -> u16 {
        self.next_instance += 1;
        self.next_instance - 1
    }

    /// Bytes that an atomic may have.
    fn atomic_place(&mut self, random: &mut Random) -> Place {
        let length = random.pick(&[4, 4, 4, 8]);
        self.align(length);
        self.place(random, length)
    }

    /// Goes on to a multiple of the length.
    fn align(&mut self, length: u8) {
        self.next_start = self.next_start.next_multiple_of(u16::from(length));
    }

    fn place(&mut self, random: &mut Random, length: u8) -> Place {
        let class = random.pick(&[0, 0, 0, 1, 1, 2, 3]);
        // The last bytes that there are go to one place now and then.
        let start = if self.next_start < 65000 && random.percent(2) {
            u16::MAX - u16::from(length) + 1
        } else {
            self.next_start
        };
        self.next_start += u16::from(length) + random.pick(&[0, 0, 4]);
        self.next_reference += 1;
        Place {
            start,
            length,
            reference: self.next_reference,
            class,
        }
    }
}

/// One episode in the making.
struct Episode<'a> {
    random: &'a mut Random,
    rows: Vec<Row>,
    agents: Vec<u8>,
    scope: u8,
    data: Place,
    flag: Place,
    classes: u8,
    /// Plain rows make themselves available and visible; else releases and
    /// acquires do it.
    by_rows: bool,
    /// Releases and acquires make nothing available or visible.
    is_relay: bool,
    /// How many hand-overs in a hundred go by a barrier, on each side.
    barrier_share: usize,
    /// How many hand-overs in a hundred go by a control barrier instead.
    control_share: usize,
    ground: &'a mut Ground,
    places: &'a [[u16; 3]],
    /// Nothing is done that may leave the episode racing.
    is_careful: bool,
    last_flag_writer: u16,
    rank: u16,
}

/// An episode whose data goes by chains.
pub(crate) fn chain_episode(
    random: &mut Random,
    ground: &mut Ground,
    places: &[[u16; 3]],
) -> Vec<Row> {
    let mut episode = Episode::new(random, ground, places);
    episode.is_careful = true;
    episode.classes |= 15 * u8::from(episode.random.percent(50));
    episode.chain();
    episode.rows
}

/// An episode of one of several shapes.
pub(crate) fn episode(
    random: &mut Random,
    ground: &mut Ground,
    places: &[[u16; 3]],
    is_careful: bool,
) -> Vec<Row> {
    let shape = random.below(100);
    let mut episode = Episode::new(random, ground, places);
    episode.is_careful = is_careful;
    match shape {
        0..=50 => episode.pass_data(),
        51..=62 => episode.read_then_write(),
        63..=70 => episode.count(),
        71..=77 => episode.stay_with_one_agent(),
        78..=82 => episode.split(),
        83..=85 => episode.lend(),
        86..=92 if !is_careful => episode.fork(),
        _ => episode.meet(),
    }
    episode.rows
}

/// The narrowest scope that all the agents share.
fn common_scope(agents: &[u8], places: &[[u16; 3]]) -> u8 {
    let first = places[usize::from(agents[0])];
    let agree = |count: usize| {
        agents
            .iter()
            .all(|agent| places[usize::from(*agent)][..count] == first[..count])
    };
    match (agree(3), agree(2), agree(1)) {
        (true, _, _) => scope::SUBGROUP,
        (_, true, _) => scope::WORKGROUP,
        (_, _, true) => scope::FAMILY,
        _ => scope::DEVICE,
    }
}

/// The agents that share a scope with an agent, itself among them.
fn neighbours(agent: u8, scope: u8, places: &[[u16; 3]]) -> Vec<u8> {
    (0..places.len() as u8)
        .filter(|other| *other == agent || common_scope(&[agent, *other], places) <= scope)
        .collect()
}

impl<'a> Episode<'a> {
    fn new(random: &'a mut Random, ground: &'a mut Ground, places: &'a [[u16; 3]]) -> Episode<'a> {
        let count = random.pick(&[2, 2, 2, 3, 4]);
        let agents: Vec<u8> = (0..count)
            .map(|_| random.below(places.len()) as u8)
            .collect();
        let narrowest = common_scope(&agents, places);
        let scope = random.between(usize::from(narrowest), usize::from(scope::DEVICE)) as u8;
        let length = random.pick(&[1, 2, 4, 4, 4, 8, 16]);
        // Data that lies so may be updated by atomics as well.
        if random.percent(80) {
            ground.align(length);
        }
        let data = ground.place(random, length);
        let flag = ground.atomic_place(random);
        let extra = random.pick(&[0, 0, 0, 1, 2, 4, 8, 15]);
        let barrier_share = random.pick(&[0, 30, 30, 50, 100]);
        // Only barriers need the flag's class.
        let flag_classes = if barrier_share > 0 {
            flag.class_bit()
        } else {
            0
        };
        let classes = data.class_bit() | flag_classes | extra;
        let by_rows = random.percent(25);
        let control_share = random.pick(&[0, 0, 0, 30, 100]);
        Episode {
            random,
            rows: Vec::new(),
            agents,
            scope,
            data,
            flag,
            classes,
            by_rows,
            is_relay: by_rows,
            barrier_share,
            control_share,
            ground,
            places,
            is_careful: false,
            last_flag_writer: INITIAL,
            rank: 0,
        }
    }

    fn push(&mut self, row: Row) -> u16 {
        self.rows.push(row);
        self.rows.len() as u16 - 1
    }

    fn next_rank(&mut self) -> u16 {
        self.rank += self.random.pick(&[1, 1, 1, 2, 300]);
        self.rank
    }

    /// Message passing, once or in a chain: each agent in turn uses the data
    /// and hands it on.
    fn pass_data(&mut self) {
        if self.random.percent(20) {
            self.read_data(self.agents[0]);
        }
        self.write_data(self.agents[0]);
        if self.random.percent(50) {
            self.write_data(self.agents[0]);
        }
        let relays = self.random.percent(40);
        for turn in 1..self.agents.len() {
            let (from, to) = (self.agents[turn - 1], self.agents[turn]);
            let is_last = turn == self.agents.len() - 1;
            // An agent that only hands on needs nothing visible or available.
            let is_relay = self.by_rows || (relays && !is_last);
            self.hand_over_to(from, to, is_relay);
            if !relays || is_last {
                for _ in 0..self.random.pick(&[1, 1, 2, 3]) {
                    self.use_data(to);
                }
            }
        }
    }

    /// Availability and visibility by barriers of their own, whose classes
    /// share only a part with those of the release and acquire between.
    fn split(&mut self) {
        let (from, to) = (self.agents[0], self.agents[1]);
        let near = 1 << self.random.below(4);
        let far = 1 << self.random.below(4);
        self.by_rows = false;
        self.is_relay = true;
        self.barrier_share = 0;
        self.write_data(from);
        let classes = self.data.class_bit() | near;
        let order = self.release_order();
        let barrier = Row::barrier(from, order, classes).scope(self.scope);
        self.push(barrier.make_available());
        self.classes = near | far;
        self.hand_over(from, to);
        let classes = self.data.class_bit() | far;
        let order = self.acquire_order();
        let barrier = Row::barrier(to, order, classes).scope(self.scope);
        self.push(barrier.make_visible());
        self.read_data(to);
    }

    /// A write and a read lend their availability and visibility to their
    /// neighbours, as far as their bytes and references go.
    fn lend(&mut self) {
        let (from, to) = (self.agents[0], self.agents[1]);
        let mut other = self.ground.place(self.random, self.data.length);
        other.start = self.data.start;
        self.by_rows = false;
        self.is_relay = true;
        self.push(self.data.of(Row::write(from)));
        let lender = if self.random.percent(15) && !self.is_careful {
            other
        } else {
            self.data
        };
        let write = lender.part(self.random).of(Row::write(from));
        self.push(write.make_available().scope(self.scope));
        self.hand_over(from, to);
        self.read_data(to);
        if let Some(read) = self.rows.last_mut() {
            *read = read.make_visible().scope(self.scope);
        }
        self.use_data(to);
    }

    /// A read that a write by another reference and class comes after.
    fn read_then_write(&mut self) {
        let mut other = self.ground.place(self.random, self.data.length);
        other.start = self.data.start;
        self.classes |= other.class_bit();
        for _ in 0..self.random.pick(&[1, 1, 2]) {
            self.read_data(self.agents[0]);
        }
        self.hand_over(self.agents[0], self.agents[1]);
        let part = other.part(self.random);
        self.push(part.of(Row::write(self.agents[1])));
    }

    /// Atomics on one place, which never race.
    fn count(&mut self) {
        for _ in 0..self.random.between(2, 5) {
            let agent = self.random.pick(&self.agents);
            if self.random.percent(40) {
                self.read_flag(agent, false);
            } else {
                self.write_flag(agent, false);
            }
        }
    }

    /// Rows of one agent that need no order, often private.
    fn stay_with_one_agent(&mut self) {
        let agent = self.agents[0];
        let is_private = self.random.percent(60);
        self.by_rows &= !is_private;
        for _ in 0..self.random.pick(&[0, 0, 1, 2]) {
            self.write_data(agent);
        }
        for _ in 0..self.random.between(1, 3) {
            self.use_data(agent);
        }
        for row in &mut self.rows {
            if is_private && row.is_plain() {
                *row = row.private();
            }
        }
    }

    /// A release whose sequence forks: two followers of equal rank that
    /// aren't mutually-ordered, since the first one's scope is narrow.
    fn fork(&mut self) {
        let near = self.agents[0];
        let places = self.places;
        let far = (usize::from(near) + self.random.between(1, places.len() - 1)) % places.len();
        let far = far as u8;
        self.scope = scope::DEVICE;
        self.by_rows = false;
        self.is_relay = false;
        self.write_data(near);
        let head = self.write_flag(near, true);
        let rank = self.next_rank();
        let too_wide = common_scope(&[near, far], places);
        let narrow = self.random.below(usize::from(too_wide)) as u8;
        let follower = self.flag.of(Row::rmw(near, head, rank)).scope(narrow);
        let follower = self.push(follower);
        if self.random.percent(60) {
            self.order_by_second_flag(near, far);
        }
        let second = if self.random.percent(60) {
            Row::rmw(far, follower, rank)
        } else {
            Row::atomic_write(far, rank)
        };
        self.push(self.flag.of(second));
        self.last_flag_writer = follower;
        let neighbours = neighbours(near, narrow, places);
        let reader = self.random.pick(&neighbours);
        self.read_flag(reader, true);
        self.use_data(reader);
    }

    /// A hand-over by a flag of its own.
    fn order_by_second_flag(&mut self, from: u8, to: u8) {
        let first = self.flag;
        self.flag = self.ground.atomic_place(self.random);
        self.classes |= self.flag.class_bit();
        self.last_flag_writer = INITIAL;
        self.hand_over(from, to);
        self.flag = first;
    }

    fn hand_over(&mut self, from: u8, to: u8) {
        self.hand_over_to(from, to, self.is_relay);
    }

    /// A release, maybe a chain after it, and an acquire; or a control barrier.
    /// From the acquire on, it says whether there is availability and
    /// visibility.
    fn hand_over_to(&mut self, from: u8, to: u8, is_relay: bool) {
        if from != to && self.random.percent(self.control_share) {
            return self.hand_over_by_control(from, to, is_relay);
        }
        self.release(from);
        self.carry_on(from);
        self.is_relay = is_relay;
        self.acquire(to);
    }

    /// A release atomic, or a release barrier with an atomic after it.
    fn release(&mut self, agent: u8) {
        let by_barrier = self.random.percent(self.barrier_share);
        if by_barrier {
            let order = self.release_order();
            let barrier = Row::barrier(agent, order, self.classes).scope(self.wide_scope());
            self.push_with_availability(barrier);
        }
        self.write_flag(agent, !by_barrier);
    }

    /// An acquire atomic, or an acquire barrier with an atomic before it.
    fn acquire(&mut self, agent: u8) {
        let by_barrier = self.random.percent(self.barrier_share);
        self.read_flag(agent, !by_barrier);
        if by_barrier {
            let order = self.acquire_order();
            let barrier = Row::barrier(agent, order, self.classes).scope(self.wide_scope());
            self.push_with_visibility(barrier);
        }
    }

    /// The episode's scope or a wider one, which its agents share as well.
    fn wide_scope(&mut self) -> u8 {
        let narrowest = usize::from(self.scope);
        self.random.between(narrowest, usize::from(scope::DEVICE)) as u8
    }

    /// Goes on the release sequence by RMWs of anyone; now and then a write
    /// by the head's agent ends it.
    fn carry_on(&mut self, head: u8) {
        for _ in 0..self.random.pick(&[0, 0, 0, 0, 1, 1, 2]) {
            let rank = self.next_rank();
            let row = if self.random.percent(90) || self.is_careful {
                Row::rmw(self.random.pick(&self.agents), self.last_flag_writer, rank)
            } else {
                Row::atomic_write(head, rank)
            };
            let scope = self.wide_scope();
            self.last_flag_writer = self.push(self.flag.of(row).scope(scope));
        }
    }

    fn release_order(&mut self) -> u8 {
        self.random
            .pick(&[order::RELEASE, order::RELEASE, order::BOTH])
    }

    fn acquire_order(&mut self) -> u8 {
        self.random
            .pick(&[order::ACQUIRE, order::ACQUIRE, order::BOTH])
    }

    /// An atomic write or RMW of the flag.
    fn write_flag(&mut self, agent: u8, is_release: bool) -> u16 {
        let rank = self.next_rank();
        let is_rmw = self.random.percent(35);
        let row = if is_rmw {
            Row::rmw(agent, self.last_flag_writer, rank)
        } else {
            Row::atomic_write(agent, rank)
        };
        let row = self.flag.of(row).scope(self.wide_scope());
        self.last_flag_writer = if is_release {
            let both = is_rmw && self.random.percent(50);
            let order = if both { order::BOTH } else { order::RELEASE };
            self.push_with_availability(row.order(order, self.classes))
        } else {
            self.push(row)
        };
        self.last_flag_writer
    }

    /// An atomic read or RMW of the flag.
    fn read_flag(&mut self, agent: u8, is_acquire: bool) {
        let source = self.last_flag_writer;
        let is_rmw = self.random.percent(25);
        let row = if is_rmw {
            let rank = self.next_rank();
            Row::rmw(agent, source, rank)
        } else {
            Row::atomic_read(agent, source)
        };
        let row = self.flag.of(row).scope(self.wide_scope());
        let place = if is_acquire {
            let both = is_rmw && self.random.percent(50);
            let order = if both { order::BOTH } else { order::ACQUIRE };
            self.push_with_visibility(row.order(order, self.classes))
        } else {
            self.push(row)
        };
        if is_rmw {
            self.last_flag_writer = place;
        }
    }

    fn push_with_availability(&mut self, row: Row) -> u16 {
        let needs = !self.is_relay || self.random.percent(10);
        self.push(if needs { row.make_available() } else { row })
    }

    fn push_with_visibility(&mut self, row: Row) -> u16 {
        let needs = !self.is_relay || self.random.percent(10);
        self.push(if needs { row.make_visible() } else { row })
    }

    fn use_data(&mut self, agent: u8) {
        match self.random.below(10) {
            0..=5 => self.read_data(agent),
            6..=8 => self.write_data(agent),
            _ => self.update_data(agent),
        }
    }

    fn write_data(&mut self, agent: u8) {
        let mut row = self.data.part(self.random).of(Row::write(agent));
        if self.by_rows {
            row = row.make_available().scope(self.scope);
        }
        self.push(row);
    }

    /// Reads bytes whose latest write is one row, or that have none.
    fn read_data(&mut self, agent: u8) {
        let part = self.data.part(self.random);
        let mut row = part.of(Row::read(agent, INITIAL));
        if let Some(writer) = self.latest_writer(row) {
            row = overlap(row, self.rows[writer]);
            row.source = writer as u16;
        }
        if self.by_rows {
            row = row.make_visible().scope(self.scope);
        }
        self.push(row);
    }

    /// An atomic write of all the data, or an RMW if its bytes have one
    /// latest writer. Bytes that no atomic may have are written plainly.
    fn update_data(&mut self, agent: u8) {
        let row = self.data.of(Row::atomic_write(agent, 0));
        if self.by_rows || !row.has_atomic_bytes() {
            return self.write_data(agent);
        }
        let rank = self.next_rank();
        let mut row = Row { rank, ..row }.scope(self.scope);
        if let Some(writer) = self.latest_writer(row) {
            if self.rows[writer].covers(row) {
                row.kind = kind::RMW;
                row.source = writer as u16;
            }
        }
        self.push(row);
    }

    fn latest_writer(&self, row: Row) -> Option<usize> {
        (0..self.rows.len())
            .rev()
            .find(|other| self.rows[*other].writes() && self.rows[*other].overlaps(row))
    }
}

/// The row cut down to the bytes that it shares with another.
fn overlap(row: Row, other: Row) -> Row {
    let start = row.start.max(other.start);
    let length = row.end().min(other.end()) - u32::from(start);
    row.at(start, length as u8)
}
