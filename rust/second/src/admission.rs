//! The refusals, one function for each, and the order they are tested in.

use crate::fault::{broken, Fault, Misfit};
use crate::state::State;
use crate::table::*;
use crate::{MAX_AGENTS, MAX_DEPENDENCIES, MAX_LENGTH, MAX_ROWS};

/// A refusal's number and the row that it names.
#[derive(Clone, Copy, Debug, PartialEq, Eq)]
pub(crate) struct Refusal {
    pub number: u8,
    pub row: u16,
}

/// What the table is wanted for: only a fill allows blanks.
#[derive(Clone, Copy, PartialEq, Eq)]
pub(crate) enum Purpose {
    Check,
    Fill,
}

/// How many consecutive counts the ranks of one place must fit in.
const RUN: u16 = 32768;
/// The highest number of a class.
const HIGHEST_CLASS: u8 = 3;

/// A refusal's number and its broken conditions.
type DoorTest = (u8, fn(&[u8]) -> Vec<Fault>);

const DOOR: [DoorTest; 4] = [
    (1, refusal_1),
    (2, refusal_2),
    (3, refusal_3),
    (4, refusal_4),
];

/// Refusals 1 to 4, in order; else the counts of agents and rows.
pub(crate) fn door(table: &[u8]) -> Result<(usize, usize), Refusal> {
    for (number, faults) in DOOR {
        if !faults(table).is_empty() {
            return Err(Refusal { number, row: 0 });
        }
    }
    Ok((usize::from(table[5]), usize::from(table[6])))
}

/// Refusal 11: the work area or the other lent buffer is too short.
pub(crate) fn refusal_11(
    work_words: usize,
    least_words: usize,
    numbers: usize,
    least_numbers: usize,
) -> bool {
    work_words < least_words || numbers < least_numbers
}

/// Refusal 1: the table is under 8 bytes.
fn refusal_1(table: &[u8]) -> Vec<Fault> {
    let bytes = table.len();
    broken([(bytes < HEADER_BYTES, Fault::Short { bytes })])
}

/// Refusal 2: the version isn't 1, 2 or 3, or byte 7 isn't 0.
fn refusal_2(table: &[u8]) -> Vec<Fault> {
    let (version, value) = (table[4], table[7]);
    let is_known = (PLAIN_RANKS..=WITH_HOSTS).contains(&version);
    broken([
        (!is_known, Fault::Version { version }),
        (value != 0, Fault::Byte7 { value }),
    ])
}

/// Refusal 3: agents over 32 or rows over 128.
fn refusal_3(table: &[u8]) -> Vec<Fault> {
    let (agents, rows) = (table[5], table[6]);
    broken([
        (usize::from(agents) > MAX_AGENTS, Fault::Agents { agents }),
        (usize::from(rows) > MAX_ROWS, Fault::Rows { rows }),
    ])
}

/// Refusal 4: the count, or the lent table's length, doesn't fit the agents,
/// rows and dependencies; or the count of dependencies is missing.
fn refusal_4(table: &[u8]) -> Vec<Fault> {
    let (agents, rows) = (usize::from(table[5]), usize::from(table[6]));
    let (bytes, count) = (table.len(), four_bytes(table, 0));
    let mut wanted = HEADER_BYTES + agent_bytes(table[4]) * agents + ROW_BYTES * rows;
    if table[4] == WITH_HOSTS {
        let Some(count) = dependency_count(table) else {
            let least = wanted + COUNT_BYTES;
            return vec![Fault::NoCount { bytes, least }];
        };
        wanted += COUNT_BYTES + DEPENDENCY_BYTES * count;
    }
    let following = wanted - 4;
    broken([
        (
            count as usize != following,
            Fault::Count {
                count,
                wanted: following,
            },
        ),
        (bytes != wanted, Fault::Length { bytes, wanted }),
    ])
}

/// The count of dependencies of a table that has one.
fn dependency_count(table: &[u8]) -> Option<usize> {
    let at = dependencies_at(usize::from(table[5]), usize::from(table[6]));
    let is_there = table[4] == WITH_HOSTS && table.len() >= at + COUNT_BYTES;
    is_there.then(|| usize::from(two_bytes(table, at)))
}

/// Refusal 5: a code is out of range. Byte 6 of a control barrier is an
/// execution scope.
fn refusal_5(row: Row, version: u8, agents: usize) -> Vec<Fault> {
    let last_kind = if version == WITH_HOSTS {
        DEVICE_TO_HOST
    } else {
        CONTROL_BARRIER
    };
    let highest = if row.is_control_barrier() {
        DEVICE
    } else {
        HIGHEST_CLASS
    };
    let codes = [
        (0, row.kind, last_kind),
        (2, row.order, BOTH),
        (3, row.scope, DEVICE),
        (4, row.classes, 15),
        (5, row.flags, 7),
        (6, row.class, highest),
    ];
    let over = codes.into_iter().filter(|(_, value, most)| value > most);
    let over = over.map(|(at, value, most)| Fault::Code { at, value, most });
    let agent = row.agent;
    let no_agent = usize::from(agent) >= agents;
    over.chain(no_agent.then_some(Fault::NoAgent { agent, agents }))
        .collect()
}

/// Refusal 19: a kind that an agent of this sort may not have.
fn refusal_19(row: Row, sort: u16) -> Vec<Fault> {
    let is_wrong = match sort {
        HOST => !row.is_plain(),
        QUEUE => !row.is_queue_operation(),
        _ => row.is_queue_operation(),
    };
    broken([(is_wrong, Fault::AgentRow { sort })])
}

/// Refusal 6: the kind fit is broken; of a queue operation it is refusal 20.
fn refusal_6(row: Row) -> Vec<Fault> {
    misfits(row).into_iter().map(Fault::Unfit).collect()
}

/// The conditions of kind fit that a row breaks. Its codes are in range.
pub fn misfits(row: Row) -> Vec<Misfit> {
    let mut misfits = broken([
        (!row.reads() && row.source != INITIAL, Misfit::Source),
        (!row.is_atomic_writer() && row.rank != 0, Misfit::Rank),
    ]);
    if row.is_queue_operation() {
        misfits.extend(misfits_of_operation(row));
    } else if row.is_plain() {
        misfits.extend(misfits_of_plain(row));
    } else {
        misfits.extend(misfits_of_semantics(row));
        misfits.extend(misfits_of_atomic(row));
        misfits.extend(misfits_of_barrier(row));
    }
    misfits
}

/// A queue operation has zeros in bytes 2 to 11.
fn misfits_of_operation(row: Row) -> Vec<Misfit> {
    broken([
        (row.order != 0, Misfit::NotZero { at: 2 }),
        (row.scope != 0, Misfit::NotZero { at: 3 }),
        (row.classes != 0, Misfit::NotZero { at: 4 }),
        (row.flags != 0, Misfit::NotZero { at: 5 }),
        (row.class != 0, Misfit::NotZero { at: 6 }),
        (row.length != 0, Misfit::NotZero { at: 7 }),
        (row.start != 0, Misfit::NotZero { at: 8 }),
        (row.reference != 0, Misfit::NotZero { at: 10 }),
    ])
}

fn misfits_of_plain(row: Row) -> Vec<Misfit> {
    let either_flag = row.makes_available() || row.makes_visible();
    broken([
        (row.order != RELAXED, Misfit::PlainOrder),
        (row.classes != 0, Misfit::PlainClasses),
        (row.reads() && row.makes_available(), Misfit::ReadAvailable),
        (row.writes() && row.makes_visible(), Misfit::WriteVisible),
        (either_flag && !row.is_non_private(), Misfit::PrivateFlags),
        (!either_flag && row.scope != INVOCATION, Misfit::PlainScope),
    ])
}

/// Kind fit of atomics and barriers alike.
fn misfits_of_semantics(row: Row) -> Vec<Misfit> {
    let is_relaxed = row.order == RELAXED;
    broken([
        (
            row.makes_available() && !row.is_release(),
            Misfit::NoRelease,
        ),
        (row.makes_visible() && !row.is_acquire(), Misfit::NoAcquire),
        (row.classes != 0 && is_relaxed, Misfit::RelaxedClasses),
        (row.classes == 0 && !is_relaxed, Misfit::NoClasses),
    ])
}

/// Kind fit of atomic rows; any other row fits.
fn misfits_of_atomic(row: Row) -> Vec<Misfit> {
    let releases = row.kind == ATOMIC_READ && row.is_release();
    let acquires = row.kind == ATOMIC_WRITE && row.is_acquire();
    let is_private = row.is_atomic() && !row.is_non_private();
    broken([
        (is_private, Misfit::PrivateAtomic),
        (releases, Misfit::ReadReleases),
        (acquires, Misfit::WriteAcquires),
    ])
}

/// Kind fit of barriers; any other row fits. A control barrier may be relaxed,
/// and has an execution scope and an instance where other barriers have zeros.
fn misfits_of_barrier(row: Row) -> Vec<Misfit> {
    if !row.is_barrier() {
        return Vec::new();
    }
    let is_bare = !row.is_control_barrier();
    broken([
        (is_bare && row.order == RELAXED, Misfit::RelaxedBarrier),
        (row.is_non_private(), Misfit::NonPrivateBarrier),
        (is_bare && row.class != 0, Misfit::NotZero { at: 6 }),
        (row.length != 0, Misfit::NotZero { at: 7 }),
        (is_bare && row.start != 0, Misfit::NotZero { at: 8 }),
        (row.reference != 0, Misfit::NotZero { at: 10 }),
    ])
}

/// Refusal 7: an access of length 0 or over 16, or past byte 65535; an atomic
/// of another length than 4 or 8, or whose length doesn't divide its start.
fn refusal_7(row: Row) -> Vec<Fault> {
    if !row.is_access() {
        return Vec::new();
    }
    let (start, bytes) = (row.start, row.length);
    let is_odd = !matches!(bytes, 0 | 4 | 8);
    let is_askew = matches!(bytes, 4 | 8) && !start.is_multiple_of(u16::from(bytes));
    let is_past_end = row.end_byte() > 65536;
    broken([
        (bytes == 0, Fault::Empty),
        (usize::from(bytes) > MAX_LENGTH, Fault::Long { bytes }),
        (is_past_end, Fault::PastEnd { start, bytes }),
        (row.is_atomic() && is_odd, Fault::AtomicLength { bytes }),
        (
            row.is_atomic() && is_askew,
            Fault::Alignment { start, bytes },
        ),
    ])
}

impl State {
    /// Takes the dependencies in, or gives refusal 16, 17 or 18.
    pub(crate) fn take_dependencies_in(
        &mut self,
        table: &[u8],
        agent_count: usize,
    ) -> Option<Refusal> {
        self.dependencies.clear();
        let count = dependency_count(table).unwrap_or(0);
        if count <= MAX_DEPENDENCIES {
            let at = dependencies_at(agent_count, self.row_count);
            let all = (0..count).map(|number| dependency_of(table, at, number));
            self.dependencies.extend(all);
        }
        let number = if !self.refusal_16(agent_count).is_empty() {
            16
        } else if !refusal_17(table).is_empty() {
            17
        } else if !self.refusal_18().is_empty() {
            18
        } else {
            return None;
        };
        Some(Refusal { number, row: 0 })
    }

    /// Refusal 16: an agent's fourth number is over 2.
    fn refusal_16(&self, agent_count: usize) -> Vec<Fault> {
        let sorts = self.sorts[..agent_count].iter().copied().enumerate();
        let wrong = sorts.filter(|(_, sort)| *sort > QUEUE);
        wrong
            .map(|(agent, sort)| Fault::AgentSort { agent, sort })
            .collect()
    }

    /// Refusal 18: a dependency that names no row.
    fn refusal_18(&self) -> Vec<Fault> {
        let rows = self.row_count;
        let pairs = self.dependencies.iter().enumerate();
        let named = pairs.flat_map(|(number, pair)| pair.map(|row| (number, row)));
        let wrong = named.filter(|(_, row)| usize::from(*row) >= rows);
        wrong
            .map(|(number, row)| Fault::Dependency { number, row, rows })
            .collect()
    }

    /// Rows ascending, each through refusals 5, 19, 6 or 20, and 7.
    pub(crate) fn refusal_by_row_alone(&self, agent_count: usize) -> Option<Refusal> {
        self.first_refusal(|row| {
            let fields = self.rows[row];
            if !refusal_5(fields, self.version, agent_count).is_empty() {
                Some(5)
            } else if !refusal_19(fields, self.sorts[usize::from(fields.agent)]).is_empty() {
                Some(19)
            } else if !refusal_6(fields).is_empty() {
                Some(if fields.is_queue_operation() { 20 } else { 6 })
            } else {
                (!refusal_7(fields).is_empty()).then_some(7)
            }
        })
    }

    /// Rows ascending, each through refusals 8, 9, 10, 14 and 15.
    pub(crate) fn refusal_among_rows(&self, purpose: Purpose) -> Option<Refusal> {
        self.first_refusal(|row| {
            if self.refusal_8(row).is_some() {
                Some(8)
            } else if self.refusal_9(row, purpose).is_some() {
                Some(9)
            } else if self.refusal_10(row).is_some() {
                Some(10)
            } else if !self.refusal_14(row).is_empty() {
                Some(14)
            } else {
                self.refusal_15(row).map(|_| 15)
            }
        })
    }

    fn first_refusal(&self, number: impl Fn(usize) -> Option<u8>) -> Option<Refusal> {
        (0..self.row_count).find_map(|row| {
            let number = number(row)?;
            let row = row as u16;
            Some(Refusal { number, row })
        })
    }

    /// The broken conditions of a refusal at a row; none of a number that isn't
    /// known, or that isn't a table's.
    pub fn faults(&mut self, table: &[u8], number: u16, row: usize) -> Vec<Fault> {
        if table.len() < HEADER_BYTES {
            return refusal_1(table);
        }
        if let Some((_, faults)) = DOOR.iter().find(|(other, _)| u16::from(*other) == number) {
            return faults(table);
        }
        let Ok((agents, rows)) = door(table) else {
            return Vec::new();
        };
        // It may be refused: its rows are wanted all the same.
        self.take_rows_in(table, agents, rows);
        self.take_dependencies_in(table, agents);
        let fields = self.rows[row.min(MAX_ROWS - 1)];
        let faults = match number {
            16 => self.refusal_16(agents),
            17 => refusal_17(table),
            18 => self.refusal_18(),
            _ if row >= rows => Vec::new(),
            5 => refusal_5(fields, self.version, agents),
            19 => refusal_19(fields, self.sort_of(fields.agent)),
            6 | 20 => refusal_6(fields),
            7 => refusal_7(fields),
            8 => self.refusal_8(row).into_iter().collect(),
            9 => self.refusal_9(row, Purpose::Check).into_iter().collect(),
            10 => self.refusal_10(row).into_iter().collect(),
            14 => self.refusal_14(row),
            15 => self.refusal_15(row).into_iter().collect(),
            _ => Vec::new(),
        };
        self.row_count = 0;
        faults
    }

    /// Refusal 8: the access's reference has another class in an earlier access.
    fn refusal_8(&self, row: usize) -> Option<Fault> {
        let access = self.rows[row];
        let earlier = (0..row).find(|earlier| {
            let earlier = self.rows[*earlier];
            earlier.is_access()
                && earlier.reference == access.reference
                && earlier.class != access.class
        })?;
        access.is_access().then_some(Fault::OtherClass { earlier })
    }

    /// Refusal 9: a reading row's source isn't fit.
    fn refusal_9(&self, row: usize, purpose: Purpose) -> Option<Fault> {
        let reader = self.rows[row];
        let allowed_blank =
            reader.source == BLANK && purpose == Purpose::Fill && reader.kind == PLAIN_READ;
        if !reader.reads() || allowed_blank {
            return None;
        }
        self.unfit_source(row, reader.source)
    }

    /// Refusal 9's test of a source: the initial value, or another, writing row
    /// that covers all the reader's bytes, is fit.
    pub(crate) fn unfit_source(&self, reader: usize, source: u16) -> Option<Fault> {
        let (rows, row) = (self.row_count, usize::from(source));
        if source == INITIAL {
            return None;
        }
        if source == BLANK {
            let is_plain = self.rows[reader].is_plain();
            return Some(Fault::Blank { is_plain });
        }
        if row >= rows {
            return Some(Fault::NoRow { source, rows });
        }
        if row == reader {
            return Some(Fault::Itself);
        }
        if !self.rows[row].writes() {
            return Some(Fault::NoWriter { source: row });
        }
        let covers = self.rows[row].covers_all_bytes_of(self.rows[reader]);
        (!covers).then_some(Fault::Uncovered { source: row })
    }

    /// Refusal 10: an atomic write or RMW has the rank of an earlier one
    /// mutually-ordered with it.
    fn refusal_10(&self, row: usize) -> Option<Fault> {
        let writer = self.rows[row];
        let earlier = (0..row).find(|earlier| {
            self.rows[*earlier].is_atomic_writer()
                && self.rows[*earlier].rank == writer.rank
                && self.m3_mutually_ordered(*earlier, row)
        })?;
        writer
            .is_atomic_writer()
            .then_some(Fault::SameRank { earlier })
    }

    /// Refusal 14: a control barrier and an earlier one of its instance have
    /// different execution scopes or one agent, or their agents don't share
    /// that scope.
    fn refusal_14(&self, row: usize) -> Vec<Fault> {
        let barrier = self.rows[row];
        let scope = barrier.execution_scope();
        let first = |test: &dyn Fn(Row) -> bool| {
            (0..row).find(|other| self.of_one_instance(*other, row) && test(self.rows[*other]))
        };
        let other_scope = first(&|other| other.execution_scope() != scope);
        let same_agent = first(&|other| other.agent == barrier.agent);
        let apart = first(&|other| {
            other.agent != barrier.agent
                && other.execution_scope() == scope
                && !self.m2_share(other.agent, barrier.agent, scope)
        });
        let faults = [
            other_scope.map(|earlier| Fault::OtherExecution { earlier }),
            same_agent.map(|earlier| Fault::SameAgent { earlier }),
            apart.map(|earlier| Fault::Apart { earlier }),
        ];
        faults.into_iter().flatten().collect()
    }

    /// Refusal 15: where ranks are counted, an atomic writer and the earlier
    /// ones of its start, length and reference fit in no run of 32,768
    /// consecutive counts, wrapping allowed.
    fn refusal_15(&self, row: usize) -> Option<Fault> {
        let writer = self.rows[row];
        if self.version < COUNTED_RANKS || !writer.is_atomic_writer() {
            return None;
        }
        let is_one = |other: &Row| {
            other.is_atomic_writer()
                && other.start == writer.start
                && other.length == writer.length
                && other.reference == writer.reference
        };
        let members = || (0..=row).filter(|other| is_one(&self.rows[*other]));
        let rank = |row: usize| self.rows[row].rank;
        // A run that fits still does if it begins at the first count taken.
        let fits_from =
            |first: usize| members().all(|row| rank(row).wrapping_sub(rank(first)) < RUN);
        let fits = members().any(fits_from);
        (!fits).then(|| Fault::Ranks {
            writers: members().collect(),
        })
    }
}

/// Refusal 17: more than 64 dependencies.
fn refusal_17(table: &[u8]) -> Vec<Fault> {
    let count = dependency_count(table).unwrap_or(0);
    broken([(count > MAX_DEPENDENCIES, Fault::Dependencies { count })])
}
