//! What would order two racing rows where hosts or queues have a part in it:
//! dependencies, and operations of a queue that are put in.

use crate::change::{Change, Reason, MOST_ARROWS, MOST_OPERATIONS};
use crate::dependency::Dependency;
use crate::facts::{at, Facts, Goal};
use crate::insertion::Insertion;
use crate::remedy::Remedy;
use crate::way::Stop;
use second::table::*;
use second::INITIAL;

/// The remedies by L4 and L5 for a race, one for each direction.
pub fn domain_remedies(checked: Facts, goal: Goal) -> Vec<Remedy> {
    let run = checked.run;
    if !run.has_hosts {
        return Vec::new();
    }
    let ways = [(goal.first, goal.second), (goal.second, goal.first)];
    let remedies = ways.into_iter().filter_map(|(before, after)| {
        // A reader comes after its source.
        if checked.state.read_from(before) == Some(after) {
            return None;
        }
        let way = if run.rows[before].writes() {
            checked.way(before, after)
        } else {
            vec![Stop::Row(before), Stop::Row(after)]
        };
        // A queue for what is missing: there may be none.
        let queue = queue_of(checked, &way);
        let is_missing = way.iter().any(|stop| matches!(stop, Stop::Missing(_)));
        if is_missing && queue.is_none() {
            return None;
        }
        Some(remedy(checked, (before, after), way, queue.unwrap_or(0)))
    });
    remedies.collect()
}

/// The queue agent of an operation on the way, or else the first one.
fn queue_of(checked: Facts, way: &[Stop]) -> Option<u8> {
    let rows = &checked.run.rows;
    let of_way = way.iter().find_map(|stop| match stop {
        Stop::Row(row) if rows[*row].is_queue_operation() => Some(rows[*row].agent),
        _ => None,
    });
    let mut agents = 0..checked.run.sorts.len() as u8;
    of_way.or_else(|| agents.find(|agent| checked.run.sort(*agent) == QUEUE))
}

fn remedy(checked: Facts, (before, after): (usize, usize), way: Vec<Stop>, queue: u8) -> Remedy {
    let mut laid = Laid::new(checked, way, queue);
    laid.put_in();
    let dependencies = laid.dependencies();
    let mut operations = [None; MOST_OPERATIONS];
    for (place, insertion) in laid.insertions.iter().enumerate() {
        operations[place] = Some(insertion.row.kind);
    }
    let mut joined = [None; MOST_ARROWS];
    for (place, dependency) in dependencies.iter().enumerate() {
        joined[place] = Some(*dependency);
    }
    let reason = Reason::NotCarried {
        before,
        after,
        operations,
        joined,
    };
    Remedy {
        changes: vec![Change {
            rows: Vec::new(),
            edits: Vec::new(),
            reasons: vec![reason],
        }],
        edits: Vec::new(),
        insertions: laid.insertions,
        dependencies,
    }
}

/// A way whose missing operations are put in one by one.
struct Laid<'a> {
    checked: Facts<'a>,
    queue: u8,
    insertions: Vec<Insertion>,
    /// Each stop's row as it is then, and as it was if it was there.
    stops: Vec<(Option<usize>, Option<usize>)>,
    kinds: Vec<u8>,
}

impl<'a> Laid<'a> {
    fn new(checked: Facts<'a>, way: Vec<Stop>, queue: u8) -> Laid<'a> {
        let stop = |stop: &Stop| match stop {
            Stop::Row(row) => (Some(*row), Some(*row)),
            Stop::Missing(_) => (None, None),
        };
        let kind = |stop: &Stop| match stop {
            Stop::Row(row) => checked.run.rows[*row].kind,
            Stop::Missing(kind) => *kind,
        };
        Laid {
            checked,
            queue,
            insertions: Vec::new(),
            stops: way.iter().map(stop).collect(),
            kinds: way.iter().map(kind).collect(),
        }
    }

    /// The agent of a stop.
    fn agent(&self, place: usize) -> u8 {
        let was = self.stops[place].1;
        was.map_or(self.queue, |row| self.checked.run.rows[row].agent)
    }

    /// Puts in what is missing: after the queue's operation before it, or in
    /// front of the queue's operation after it, or after the row before it.
    fn put_in(&mut self) {
        for place in 1..self.stops.len() {
            if self.stops[place].0.is_some() {
                continue;
            }
            let before = self.stops[place - 1].0.unwrap_or(0);
            let next = (place + 1..self.stops.len()).find(|next| self.stops[*next].0.is_some());
            let next = next.filter(|next| self.agent(*next) == self.queue);
            let at = match next.and_then(|next| self.stops[next].0) {
                Some(after) if self.agent(place - 1) != self.queue => after,
                _ => before + 1,
            };
            let insertion = Insertion {
                place: at,
                row: Row {
                    kind: self.kinds[place],
                    agent: self.queue,
                    source: INITIAL,
                    ..Row::default()
                },
            };
            for stop in &mut self.stops {
                stop.0 = stop.0.map(|row| insertion.moved(row));
            }
            self.stops[place].0 = Some(at);
            self.insertions.push(insertion);
        }
    }

    /// The dependencies that the way needs besides: program order serves
    /// between operations of one queue.
    fn dependencies(&self) -> Vec<Dependency> {
        let arrows = (1..self.stops.len()).filter_map(|place| {
            let ((first, was), (second, is)) = (self.stops[place - 1], self.stops[place]);
            let (first, second) = (first?, second?);
            let is_there = match (was, is) {
                (Some(was), Some(is)) => self.checked.state.happens_before(at(was), at(is)),
                _ => self.agent(place - 1) == self.agent(place) && first < second,
            };
            (!is_there).then_some(Dependency { first, second })
        });
        arrows.collect()
    }
}
