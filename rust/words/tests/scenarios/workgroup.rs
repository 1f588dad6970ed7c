//! One workgroup: a reduction with a control barrier in each round.

use super::{Builder, Scenario};
use tables::builder::{classes, order, scope};
use tables::{Build, Row, INITIAL};

pub fn all(has_places: bool) -> Vec<Scenario> {
    let mut scenarios = Vec::new();
    for agents in [4, 8] {
        for bug in BUGS {
            scenarios.push(reduction(agents, bug, has_places));
        }
    }
    scenarios
}

const BUGS: [&str; 5] = [
    "no flags",
    "execution only",
    "another class",
    "subgroup scope",
    "no barrier",
];

/// A control barrier of the round, spoilt as the bug says.
fn barrier(agent: u8, round: u16, bug: &str) -> Row {
    let row = Row::control_barrier(agent, scope::WORKGROUP, round).scope(scope::WORKGROUP);
    let full = row
        .order(order::BOTH, classes::WORKGROUP)
        .make_available()
        .make_visible();
    match bug {
        "no flags" => row.order(order::BOTH, classes::WORKGROUP),
        "execution only" => row,
        "another class" => full.order(order::BOTH, classes::UNIFORM),
        "subgroup scope" => full.scope(scope::SUBGROUP),
        _ => full,
    }
}

/// Agents add up shared words, half as many in each round. With places the
/// barrier's line is wrong, without them the barrier of round 1; a barrier
/// that isn't there is missing after round 1 either way.
fn reduction(agents: u8, bug: &str, has_places: bool) -> Scenario {
    let name = format!("reduction of {agents}, {bug}");
    let places: Vec<[u16; 3]> = (0..agents).map(|agent| [0, 0, u16::from(agent)]).collect();
    let mut run = Builder::new(&name, &places, has_places);
    let word = |row: Row, at: u8| row.at(4 * u16::from(at), 4).class(1);
    let mut last: Vec<u16> = (0..agents)
        .map(|agent| run.push(word(Row::write(agent), agent), 10))
        .collect();
    let mut stride = agents / 2;
    let mut round = 0;
    while stride > 0 {
        let is_missing = bug == "no barrier" && round == 1;
        let is_wrong = has_places || round == 1;
        for agent in (0..agents).filter(|_| !is_missing) {
            let bug = if is_wrong { bug } else { "" };
            run.push(barrier(agent, round, bug), 14);
        }
        let before = last.clone();
        for agent in 0..stride {
            let other = agent + stride;
            run.push(
                word(Row::read(agent, before[usize::from(other)]), other),
                16,
            );
            run.push(
                word(Row::read(agent, before[usize::from(agent)]), agent),
                16,
            );
            last[usize::from(agent)] = run.push(word(Row::write(agent), agent), 17);
        }
        stride /= 2;
        round += 1;
    }
    debug_assert!(run
        .rows()
        .iter()
        .all(|row| row.source != INITIAL || !row.reads()));
    run.scenario()
}
