//! Availability chains and visibility chains, with the switch on and off.

mod common;

use common::*;
use second::{Chains, FillAnswer, State, CYCLE_NUMBERS, SOURCE_NUMBERS, WORK_WORDS};
use tables::builder::classes::{IMAGE, UNIFORM};
use tables::builder::order::ACQUIRE;
use tables::builder::scope::{DEVICE, FAMILY, SUBGROUP, WORKGROUP};
use tables::{
    chained, chained_fillable, checkable, hosted, Build, Random, Row, Size, Table, BLANK,
};

fn check_with(chains: Chains, table: &Table) -> String {
    check_bytes_with(chains, &table.bytes())
}

/// What a table answers with chains off and on.
fn both(table: &Table) -> [String; 2] {
    [Chains::Off, Chains::On].map(|chains| check_with(chains, table))
}

/// The numbered flag: four bytes and a reference of its own.
fn of_flag(row: Row, number: u16) -> Row {
    row.at(64 + 4 * number, 4).reference(10 + number)
}

/// A flag released by an agent; it makes available in the scope.
fn release(agent: u8, number: u16, scope: u8) -> Row {
    let row = of_flag(Row::atomic_write(agent, 1), number).scope(scope);
    row.release(UNIFORM).make_available()
}

/// The flag acquired from its row; it makes nothing visible.
fn acquire(agent: u8, number: u16, source: u16, scope: u8) -> Row {
    let row = of_flag(Row::atomic_read(agent, source), number).scope(scope);
    row.acquire(UNIFORM)
}

/// Agents 0 and 1 are of one workgroup, 2 and 3 of another one, 4 of another
/// family; each is in a subgroup of its own.
const AGENTS: [[u16; 3]; 5] = [[0, 0, 0], [0, 0, 1], [0, 1, 0], [0, 1, 1], [1, 0, 0]];

/// Agent 0 writes and releases to its workgroup, agent 1 acquires and releases
/// in a scope, an agent acquires that and reads.
fn available_by_two(scope: u8, reader: u8) -> Table {
    let rows = [
        Row::write(0),
        release(0, 0, WORKGROUP),
        acquire(1, 0, 1, WORKGROUP),
        release(1, 1, scope),
        acquire(reader, 1, 3, DEVICE).make_visible(),
        Row::read(reader, 0),
    ];
    Table::new(&AGENTS, &rows)
}

#[test]
fn an_availability_chain_of_two() {
    let race = "race 0 5 0".to_string();
    let free = "race-free".to_string();
    assert_eq!(both(&available_by_two(DEVICE, 2)), [race.clone(), free]);
    // The family is broad enough for agent 2, not for agent 4.
    let family = available_by_two(FAMILY, 2);
    assert_eq!(both(&family)[1], "race-free");
    let afar = available_by_two(FAMILY, 4);
    assert_eq!(both(&afar), [race.clone(), race.clone()]);
    assert_eq!(both(&available_by_two(DEVICE, 4))[1], "race-free");
    // An equal scope goes no further.
    assert_eq!(both(&available_by_two(WORKGROUP, 2)), [race.clone(), race]);
}

#[test]
fn the_next_element_is_in_the_instance_of_the_one_before() {
    let mut table = available_by_two(DEVICE, 2);
    // A narrower first element doesn't reach agent 1, though the flag does.
    table.rows[0] = Row::write(0).make_available().scope(SUBGROUP);
    table.rows[1].flags = 1;
    assert_eq!(both(&table)[1], "race 0 5 0");
    table.rows[0].scope = WORKGROUP;
    assert_eq!(both(&table)[1], "race-free");
    // Agent 1 elsewhere, and the flag for all the device.
    table.agents[1] = [0, 1, 1];
    for row in [1, 2] {
        table.rows[row].scope = DEVICE;
    }
    assert_eq!(both(&table)[1], "race 0 5 0");
}

#[test]
fn an_element_must_happen_before_the_next() {
    let mut table = available_by_two(DEVICE, 2);
    table.rows[2].source = 65535;
    assert_eq!(both(&table)[1], "race 0 5 0");
    let mut table = available_by_two(DEVICE, 2);
    table.rows[3].flags = 1;
    assert_eq!(both(&table)[1], "race 0 5 0");
}

#[test]
fn only_the_first_element_covers_the_write() {
    let mut table = available_by_two(DEVICE, 2);
    table.rows[3].classes = UNIFORM | IMAGE;
    assert_eq!(both(&table)[1], "race-free");
    // The second element is a plain write of other bytes by another reference.
    let other = Row::write(1).at(200, 4).reference(50);
    let mut table = available_by_two(DEVICE, 2);
    table.rows[3].flags = 1;
    table.insert(3, other.make_available().scope(DEVICE));
    assert_eq!(both(&table)[1], "race-free");
    // The first one must: it is of another reference's bytes.
    let mut table = available_by_two(DEVICE, 2);
    table.rows[1].flags = 1;
    let other = Row::write(0).at(200, 4).reference(50);
    table.insert(1, other.make_available().scope(WORKGROUP));
    assert_eq!(both(&table)[1], "race 0 6 0");
}

/// Agent 0 writes and releases to all; agent 2 makes visible from a scope and
/// releases to its workgroup; agent 3 of it makes visible and reads.
fn visible_by_two(first: u8, last: u8) -> Table {
    let rows = [
        Row::write(0),
        release(0, 0, DEVICE),
        acquire(2, 0, 1, first).make_visible(),
        release(2, 1, WORKGROUP),
        acquire(3, 1, 3, last).make_visible(),
        Row::read(3, 0),
    ];
    Table::new(&AGENTS, &rows)
}

#[test]
fn a_visibility_chain_of_two() {
    let [off, on] = both(&visible_by_two(DEVICE, WORKGROUP));
    assert_eq!((off.as_str(), on.as_str()), ("race 0 5 0", "race-free"));
    let [_, on] = both(&visible_by_two(FAMILY, WORKGROUP));
    assert_eq!(on, "race-free");
    // Not narrower, or not in its instance.
    let same = visible_by_two(WORKGROUP, WORKGROUP);
    assert_eq!(both(&same)[1], "race 0 5 0");
    let mut narrow = visible_by_two(DEVICE, WORKGROUP);
    narrow.rows[4].flags = 1;
    narrow.rows[5] = Row::read(3, 0).make_visible().scope(SUBGROUP);
    assert_eq!(both(&narrow)[1], "race 0 5 0");
    narrow.rows[5].scope = WORKGROUP;
    assert_eq!(both(&narrow)[1], "race-free");
}

#[test]
fn a_write_needs_the_availability_chain_alone() {
    let mut table = available_by_two(DEVICE, 2);
    table.rows[4].flags = 1;
    table.rows[5] = Row::write(2);
    let [off, on] = both(&table);
    assert_eq!((off.as_str(), on.as_str()), ("race 0 5 0", "race-free"));
    table.rows[5] = Row::rmw(2, 0, 1);
    assert_eq!(both(&table)[1], "race 0 5 0");
}

#[test]
fn the_chains_meet_in_a_domain_of_both_agents() {
    // Agent 1 makes available to the family; agent 4 of another family makes
    // visible from the device, and hands on to agent 2, which makes visible
    // from the family.
    let release_only =
        |agent, number| of_flag(Row::atomic_write(agent, 1), number).release(UNIFORM);
    let fence = Row::barrier(2, ACQUIRE, UNIFORM).make_visible();
    let rows = [
        Row::write(0),
        release(0, 0, WORKGROUP),
        acquire(1, 0, 1, WORKGROUP),
        release(1, 1, FAMILY),
        release_only(1, 2),
        acquire(4, 2, 4, DEVICE).make_visible(),
        release_only(4, 3),
        acquire(2, 3, 6, DEVICE),
        fence.scope(FAMILY),
        Row::read(2, 0),
    ];
    let table = Table::new(&AGENTS, &rows);
    assert_eq!(both(&table)[1], "race-free");
    // From the workgroup only: agent 4 is no element before that, since it
    // isn't of the workgroup, and the family's domain isn't reached.
    let mut narrow = table.clone();
    narrow.rows[8].scope = WORKGROUP;
    assert_eq!(both(&narrow)[1], "race 0 9 0");
    // One of the workgroup in its place is, and meets the chain in the family.
    let mut near = narrow.clone();
    for row in [5, 6] {
        near.rows[row].agent = 3;
    }
    assert_eq!(both(&near)[1], "race-free");
    // Made available to the workgroup only, there is nothing to meet.
    near.rows[3].scope = WORKGROUP;
    assert_eq!(both(&near)[1], "race 0 9 0");
}

#[test]
fn chains_of_four() {
    // One agent in each instance after the other: subgroup, workgroup, family,
    // device.
    let agents = [[0, 0, 0], [0, 0, 0], [0, 0, 1], [0, 1, 0], [1, 0, 0]];
    let rows = [
        Row::write(0),
        release(0, 0, SUBGROUP),
        acquire(1, 0, 1, SUBGROUP),
        release(1, 1, WORKGROUP),
        acquire(2, 1, 3, WORKGROUP),
        release(2, 2, FAMILY),
        acquire(3, 2, 5, FAMILY),
        release(3, 3, DEVICE),
        acquire(4, 3, 7, DEVICE).make_visible(),
        Row::read(4, 0),
    ];
    let table = Table::new(&agents, &rows);
    let [off, on] = both(&table);
    assert_eq!((off.as_str(), on.as_str()), ("race 0 9 0", "race-free"));
    for element in [1, 3, 5, 7] {
        let mut broken = table.clone();
        broken.rows[element].flags = 1;
        assert_eq!(both(&broken)[1], "race 0 9 0", "{element}");
    }
}

#[test]
fn hosts_and_queues_are_no_elements() {
    let mut table = available_by_two(DEVICE, 2);
    table.version = 3;
    assert_eq!(both(&table)[1], "race-free");
    table.sorts = vec![0, 1, 0, 0, 0];
    // A host has no atomics: what is left of the chain is its plain write.
    table.rows.truncate(2);
    table
        .rows
        .push(Row::write(1).at(200, 4).make_available().scope(DEVICE));
    table.rows.push(Row::read(2, 0));
    table.dependencies = vec![[1, 2], [2, 3]];
    assert_eq!(both(&table)[1], "race 0 3 0");
}

#[test]
fn fills_and_reports_take_the_switch() {
    let mut table = available_by_two(DEVICE, 2);
    table.rows[5].source = BLANK;
    let mut state = State::new();
    let mut fill = |chains| {
        let answer = state.fill_with(chains, &table.bytes(), WORK_WORDS, SOURCE_NUMBERS);
        answer.to_string()
    };
    assert_eq!(fill(Chains::Off), "race 0 5 0");
    assert_eq!(fill(Chains::On), "filled 65535 65535 1 65535 3 0");
    let table = available_by_two(DEVICE, 2).bytes();
    let mut report = |chains| {
        let answer = state.report_with(chains, &table, WORK_WORDS, CYCLE_NUMBERS);
        answer.to_string()
    };
    assert_eq!(report(Chains::Off), "report 3 2 0 1 0.3333333333333333");
    assert_eq!(report(Chains::On), "report 3 2 1 0 0.0");
}

/// Whatever is ordered with chains off is ordered with chains on, and single
/// elements are L3 as it is without chains.
#[test]
fn on_orders_whatever_off_does() {
    let mut random = Random::new(111);
    let (mut off, mut on) = (State::new(), State::new());
    let mut more = 0;
    for round in 0..700 {
        let size = Size::of(12, 32);
        let table = match round % 7 {
            0 => checkable(&mut random, size),
            1 => hosted(&mut random, size),
            _ => chained(&mut random, size),
        };
        let bytes = table.bytes();
        off.check_with(Chains::Off, &bytes, WORK_WORDS, CYCLE_NUMBERS);
        on.check_with(Chains::On, &bytes, WORK_WORDS, CYCLE_NUMBERS);
        for (x, row) in table.rows.iter().enumerate() {
            for y in 0..table.rows.len() {
                for byte in u32::from(row.start)..row.end() {
                    let is_off = off.location_order(x, y, byte);
                    let is_on = on.location_order(x, y, byte);
                    assert!(is_on || !is_off);
                    more += usize::from(is_on && !is_off);
                    assert_eq!(off.rules_at(x, y, byte)[2], single_l3(&off, x, y, byte));
                }
            }
        }
    }
    assert!(more > 300, "{more}");
}

/// L3 with single elements, as the rules have it without chains.
fn single_l3(state: &State, x: usize, y: usize, byte: u32) -> bool {
    let moments = 3 * state.row_count();
    let (first, second) = (state.rows()[x], state.rows()[y]);
    let reaches = |available: usize| {
        if !second.reads() {
            return state.happens_before(available, 3 * y + 1);
        }
        (0..moments).any(|visible| {
            state.makes_visible(visible, x, y, byte) && state.happens_before(available, visible)
        })
    };
    state.location_order(x, y, byte)
        && first.writes()
        && first.is_non_private()
        && second.is_non_private()
        && first.reference == second.reference
        && (0..moments)
            .any(|available| state.makes_available(available, x, y, byte) && reaches(available))
}

#[test]
fn each_verdict_with_chains_has_its_share() {
    let mut random = Random::new(112);
    let mut state = State::new();
    let mut counts = std::collections::BTreeMap::new();
    let mut saved = 0;
    for _ in 0..600 {
        let size = Size::of(16, 32);
        let bytes = chained(&mut random, size).bytes();
        let mut word = |chains| {
            let answer = state.check_with(chains, &bytes, WORK_WORDS, CYCLE_NUMBERS);
            answer.to_string().split(' ').next().unwrap().to_string()
        };
        let (off, on) = (word(Chains::Off), word(Chains::On));
        saved += usize::from(off == "race" && on == "race-free");
        *counts.entry(on).or_insert(0) += 1;
    }
    for word in ["race-free", "race", "cycle", "overwritten"] {
        assert!(counts.get(word) > Some(&30), "{word} {counts:?}");
    }
    assert_eq!(counts.get("refused"), None);
    assert!(saved > 60, "{saved}");
}

/// What a fill writes is race-free by a check under the same setting.
#[test]
fn check_and_fill_agree_with_chains() {
    let mut random = Random::new(113);
    let mut state = State::new();
    let mut filled = 0;
    for _ in 0..600 {
        let mut table = chained_fillable(&mut random, Size::of(6, 20));
        let answer = state.fill_with(Chains::On, &table.bytes(), WORK_WORDS, SOURCE_NUMBERS);
        if let FillAnswer::Filled(sources) = answer {
            for (row, source) in table.rows.iter_mut().zip(sources.as_slice()) {
                row.source = *source;
            }
            assert_eq!(check_with(Chains::On, &table), "race-free");
            filled += 1;
        }
    }
    assert!(filled > 200, "{filled}");
}
