//! The way of a write through the domains of host and device that L5 asks
//! for, as far as a table has it.

use crate::facts::{at, Facts};
use crate::run::Run;
use second::table::*;

/// A station of the way.
#[derive(Clone, Copy, Debug, PartialEq, Eq)]
pub enum Stop {
    Row(usize),
    /// No row serves: an operation of this kind is missing.
    Missing(u8),
}

/// A missing row is worse than a missing dependency, of which a new row may
/// need two.
const ROW_COST: usize = 2;

/// The kinds of operations that L5 asks for between two accesses, in order.
pub fn kinds(run: &Run, x: usize, y: usize) -> Vec<u8> {
    let is_host = |row: usize| run.sort(run.rows[row].agent) == HOST;
    let (from, to) = (is_host(x), is_host(y));
    let mut kinds = vec![if from {
        AVAILABLE_TO_HOST
    } else {
        AVAILABLE_TO_DEVICE
    }];
    match (from, to) {
        (true, false) => kinds.push(HOST_TO_DEVICE),
        (false, true) => kinds.push(DEVICE_TO_HOST),
        _ => (),
    }
    if run.rows[y].reads() {
        kinds.push(if to {
            VISIBLE_FROM_HOST
        } else {
            VISIBLE_FROM_DEVICE
        });
    }
    kinds
}

impl Facts<'_> {
    /// The way from X to Y on which least is missing, both ends included.
    pub fn way(&self, x: usize, y: usize) -> Vec<Stop> {
        let mut ways = vec![(0, vec![Stop::Row(x)])];
        for kind in kinds(self.run, x, y) {
            let rows = 0..self.run.rows.len();
            let rows = rows.filter(|row| self.run.rows[*row].kind == kind);
            let stops = rows.map(Stop::Row).chain([Stop::Missing(kind)]);
            ways = stops.map(|stop| self.onward(&ways, stop)).collect();
        }
        self.onward(&ways, Stop::Row(y)).1
    }

    /// The best of some ways, with one more stop.
    fn onward(&self, ways: &[(usize, Vec<Stop>)], stop: Stop) -> (usize, Vec<Stop>) {
        let own = match stop {
            Stop::Row(_) => 0,
            Stop::Missing(_) => ROW_COST,
        };
        let longer = ways.iter().filter_map(|(cost, way)| {
            let step = usize::from(self.is_gap(*way.last()?, stop));
            Some((cost + step + own, way))
        });
        let least = longer.min_by_key(|(cost, _)| *cost);
        let (cost, way) = least.expect("a way begins somewhere");
        (cost, [&way[..], &[stop]].concat())
    }

    /// Whether two rows follow each other on the way without happening before
    /// each other.
    pub fn is_gap(&self, from: Stop, to: Stop) -> bool {
        match (from, to) {
            (Stop::Row(from), Stop::Row(to)) => !self.state.happens_before(at(from), at(to)),
            _ => false,
        }
    }
}
