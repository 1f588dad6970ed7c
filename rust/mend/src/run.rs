//! A table's bytes taken apart, as far as they go.

use crate::notes::Notes;
use second::table::{agent_bytes, agent_places, agent_sort, dependency_of, row_of};
use second::table::{Row, COUNT_BYTES, DEPENDENCY_BYTES, HEADER_BYTES, ROW_BYTES};
use second::table::{CONTROL_BARRIER, DEVICE_TO_HOST, SHADER};
use second::table::{COUNTED_RANKS, FAMILY, INVOCATION, SUBGROUP, WITH_HOSTS, WORKGROUP};

/// Agents and rows as they stand in the bytes, whether they are allowed or not.
#[derive(Clone, Debug, Default, PartialEq, Eq)]
pub struct Run {
    pub agents: Vec<[u16; 3]>,
    pub rows: Vec<Row>,
    /// Whether ranks are counted: past 65535 they start again.
    pub is_counted: bool,
    /// What each agent is: shader, host or queue.
    pub sorts: Vec<u16>,
    /// Pairs of rows of which the second depends on the first.
    pub dependencies: Vec<[u16; 2]>,
    /// Whether there may be agents that are no shaders.
    pub has_hosts: bool,
    /// What the bytes don't hold.
    pub notes: Notes,
}

/// Versions from 1 to this one are known.
pub const LAST_VERSION: u8 = WITH_HOSTS;

/// Where the first row of a table stands that has a header.
pub fn first_row(table: &[u8]) -> usize {
    HEADER_BYTES + agent_bytes(table[4]) * usize::from(table[5])
}

/// Where the count of dependencies stands in a table that has a header.
pub fn past_rows(table: &[u8]) -> usize {
    first_row(table) + ROW_BYTES * usize::from(table[6])
}

/// How many dependencies a table counts, none if it has no such count.
pub fn dependency_count(table: &[u8]) -> Option<usize> {
    let has_header = table.len() >= HEADER_BYTES && table[4] == WITH_HOSTS;
    let at = has_header.then(|| past_rows(table))?;
    let count = table.get(at..at + COUNT_BYTES)?;
    Some(usize::from(u16::from_be_bytes([count[0], count[1]])))
}

impl Run {
    /// The agents and rows that are whole in a table whose header counts
    /// them; none in a version of another layout.
    pub fn of(table: &[u8]) -> Run {
        let [_, _, _, _, version @ 1..=LAST_VERSION, agent_count, row_count, _, ..] = *table else {
            return Run::default();
        };
        let (agent_count, row_count) = (usize::from(agent_count), usize::from(row_count));
        let after_header = table.len() - HEADER_BYTES;
        let whole_agents = agent_count.min(after_header / agent_bytes(version));
        let after_agents = table.len().saturating_sub(first_row(table));
        let whole_rows = row_count.min(after_agents / ROW_BYTES);
        Run {
            agents: (0..whole_agents)
                .map(|agent| agent_places(table, agent))
                .collect(),
            rows: (0..whole_rows)
                .map(|row| row_of(table, agent_count, row))
                .collect(),
            is_counted: Run::is_counted_in(version),
            sorts: (0..whole_agents)
                .map(|agent| agent_sort(table, agent))
                .collect(),
            dependencies: whole_dependencies(table),
            has_hosts: version >= WITH_HOSTS,
            notes: Notes::default(),
        }
    }

    /// The same with what a text says besides.
    pub fn noted(self, notes: &Notes) -> Run {
        Run {
            notes: notes.clone(),
            ..self
        }
    }

    /// What an agent is; one that there isn't is taken for a shader.
    pub fn sort(&self, agent: u8) -> u16 {
        let sort = self.sorts.get(usize::from(agent));
        sort.copied().unwrap_or(SHADER)
    }

    /// The last kind of row that the version has.
    pub fn last_kind(&self) -> u8 {
        if self.has_hosts {
            DEVICE_TO_HOST
        } else {
            CONTROL_BARRIER
        }
    }

    /// Whether a table's version is one whose layout is known here.
    pub fn is_known(table: &[u8]) -> bool {
        matches!(table.get(4), Some(1..=LAST_VERSION))
    }

    /// Whether a version that is known has counted ranks.
    pub fn is_counted_in(version: u8) -> bool {
        (COUNTED_RANKS..=LAST_VERSION).contains(&version)
    }

    /// M2: whether two agents share a scope; nobody shares one with an agent
    /// that there isn't, or that is no shader.
    pub fn share_scope(&self, first: u8, second: u8, scope: u8) -> bool {
        let places = |agent: u8| self.agents.get(usize::from(agent));
        let (Some(one), Some(other)) = (places(first), places(second)) else {
            return false;
        };
        if self.sort(first) != SHADER || self.sort(second) != SHADER {
            return false;
        }
        match scope {
            INVOCATION => first == second,
            SUBGROUP => one == other,
            WORKGROUP => one[..2] == other[..2],
            FAMILY => one[0] == other[0],
            _ => true,
        }
    }

    /// Whether a writer's rank is later than another's.
    pub fn is_later(&self, rank: u16, other: u16) -> bool {
        if self.is_counted {
            (1..32768).contains(&rank.wrapping_sub(other))
        } else {
            rank > other
        }
    }
}

/// The dependencies that are whole, of as many as are counted.
fn whole_dependencies(table: &[u8]) -> Vec<[u16; 2]> {
    let Some(count) = dependency_count(table) else {
        return Vec::new();
    };
    let at = past_rows(table);
    let whole = count.min((table.len() - at - COUNT_BYTES) / DEPENDENCY_BYTES);
    (0..whole)
        .map(|number| dependency_of(table, at, number))
        .collect()
}
