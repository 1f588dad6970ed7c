//! A control barrier where all agents of a workgroup or subgroup meet: where
//! each of them comes to it.

use crate::facts::{Facts, Goal};
use crate::insertion::Insertion;
use crate::run::Run;
use second::table::*;
use second::INITIAL;
use std::collections::BTreeMap;

/// For each agent the rows before which the barrier may stand: from the first
/// number up to the second.
type Room = BTreeMap<u8, (usize, usize)>;

/// Control barriers between two rows: of all agents that share the scope, and
/// of the racing agents alone if there are more.
pub fn gatherings(
    checked: Facts,
    run: &Run,
    (before, after): (usize, usize),
    scope: u8,
    classes: u8,
) -> Vec<Vec<Insertion>> {
    let rows = &run.rows;
    let pair = [rows[before].agent, rows[after].agent];
    let everyone: Vec<u8> = (0..run.agents.len() as u8)
        .filter(|agent| run.share_scope(pair[0], *agent, scope))
        .filter(|agent| rows.iter().any(|row| row.agent == *agent))
        .collect();
    let mut found = Vec::new();
    if let Some(room) = room(run, (before, after), &everyone) {
        let room = with_races(checked, room);
        found.push(barriers(run, &room, scope, classes));
    }
    if everyone.len() > 2 {
        let alone = room(run, (before, after), &pair);
        found.extend(alone.map(|room| barriers(run, &room, scope, classes)));
    }
    found
}

/// The room that the racing rows and the control barriers that are there leave
/// to each agent; none if an agent has none.
fn room(run: &Run, (before, after): (usize, usize), agents: &[u8]) -> Option<Room> {
    let rows = &run.rows;
    let met = |agent: u8, rows_met: std::ops::Range<usize>| -> Vec<u16> {
        let met = rows_met.filter(|row| rows[*row].is_control_barrier());
        let met = met.filter(|row| rows[*row].agent == agent);
        met.map(|row| rows[row].instance()).collect()
    };
    let passed = met(rows[before].agent, 0..before);
    let coming = met(rows[after].agent, after..rows.len());
    let mut room = Room::new();
    for agent in agents {
        let (mut first, mut last) = (0, rows.len());
        for (number, row) in rows.iter().enumerate() {
            if row.agent != *agent || !row.is_control_barrier() {
                continue;
            }
            if passed.contains(&row.instance()) {
                first = first.max(number + 1);
            } else if coming.contains(&row.instance()) {
                last = last.min(number);
            }
        }
        if *agent == rows[before].agent {
            first = first.max(before + 1);
        }
        if *agent == rows[after].agent {
            last = last.min(after);
        }
        if first > last {
            return None;
        }
        room.insert(*agent, (first, last));
    }
    Some(room)
}

/// Room in which the barrier stands between the rows of other races too, as
/// far as there is any.
fn with_races(checked: Facts, mut room: Room) -> Room {
    for goal in checked.races() {
        let (before, after) = direction(checked, goal);
        let rows = &checked.run.rows;
        let (one, other) = (rows[before].agent, rows[after].agent);
        let (Some((first, end)), Some((begin, last))) = (room.get(&one), room.get(&other)) else {
            continue;
        };
        let (first, last) = ((*first).max(before + 1), (*last).min(after));
        if one != other && first <= *end && *begin <= last {
            let (end, begin) = (*end, *begin);
            room.insert(one, (first, end));
            room.insert(other, (begin, last));
        }
    }
    room
}

/// Which of two racing rows came first: a reader after its source, before
/// what it didn't read.
fn direction(checked: Facts, goal: Goal) -> (usize, usize) {
    let (first, second) = (goal.first, goal.second);
    let rows = &checked.run.rows;
    let comes_first = |one: usize, other: usize| {
        let is_source = checked.state.read_from(other) == Some(one);
        is_source || rows[one].reads() && checked.state.read_from(one) != Some(other)
    };
    match comes_first(second, first) && !comes_first(first, second) {
        true => (second, first),
        false => (first, second),
    }
}

/// The barrier's rows, in the order in which they are put in.
fn barriers(run: &Run, room: &Room, scope: u8, classes: u8) -> Vec<Insertion> {
    let used = |instance: &u16| {
        let mut rows = run.rows.iter();
        rows.any(|row| row.is_control_barrier() && row.start == *instance)
    };
    let instance = (0..u16::MAX).find(|instance| !used(instance)).unwrap_or(0);
    let mut places: Vec<(usize, u8)> = room
        .iter()
        .map(|(agent, (first, last))| match first {
            0 => (*last, *agent),
            _ => (*first, *agent),
        })
        .collect();
    places.sort_unstable();
    let places = places.into_iter().enumerate();
    places
        .map(|(earlier, (place, agent))| Insertion {
            place: place + earlier,
            row: Row {
                kind: CONTROL_BARRIER,
                agent,
                order: BOTH,
                scope,
                classes,
                flags: MAKE_AVAILABLE | MAKE_VISIBLE,
                class: scope,
                start: instance,
                source: INITIAL,
                ..Row::default()
            },
        })
        .collect()
}
