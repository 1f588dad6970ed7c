//! Rows that order two racing rows of different agents: a release after the
//! one and an acquire before the other, or a control barrier where all meet.

use crate::change::{Change, Reason};
use crate::dependency::Dependency;
use crate::domains::domain_remedies;
use crate::edit::{edited, merged, Edit, Field};
use crate::facts::{Facts, Goal};
use crate::gathering::gatherings;
use crate::insertion::Insertion;
use crate::instruction::{instructions, Instruction};
use crate::run::Run;
use second::table::*;
use second::INITIAL;

/// New rows, and what else the racing rows need.
#[derive(Clone, Debug, Default)]
pub struct Remedy {
    pub changes: Vec<Change>,
    pub edits: Vec<Edit>,
    pub insertions: Vec<Insertion>,
    pub dependencies: Vec<Dependency>,
}

impl Remedy {
    /// Edits alone.
    pub fn of(edits: Vec<Edit>) -> Remedy {
        Remedy {
            edits,
            ..Remedy::default()
        }
    }
}

/// The remedies worth a try, those that order the rows as they stand first.
pub fn remedies(checked: Facts, goal: Goal) -> Vec<Remedy> {
    let rows = &checked.run.rows;
    let (first, second) = (rows[goal.first], rows[goal.second]);
    let mut remedies = domain_remedies(checked, goal);
    // Hosts neither release nor acquire.
    if first.agent == second.agent || checked.has_host(goal.first, goal.second) {
        return remedies;
    }
    let ways = [(goal.first, goal.second), (goal.second, goal.first)];
    for (before, after) in ways {
        for changes in needed(checked, before, after) {
            let edits = changes.iter().map(|change| change.edits.clone());
            let edits = edits.reduce(|one, other| merged(&one, &other).unwrap_or(one));
            let edits = edits.unwrap_or_default();
            // Classes and references as they will be.
            let run = Run::of(&edited(checked.table, &edits));
            for (reason, insertions) in synchronizations(checked, &run, before, after) {
                let mut changes = changes.clone();
                changes.push(change(&[], Vec::new(), reason));
                remedies.push(Remedy {
                    changes,
                    edits: edits.clone(),
                    insertions,
                    dependencies: Vec::new(),
                });
            }
        }
    }
    remedies
}

/// Whether a racing pair is data under a sequence lock: the writer writes a
/// place atomically before and after, the reader reads it before and after.
pub fn is_seqlock(run: &Run, goal: Goal) -> bool {
    let place = |row: Row| (row.start, row.length, row.reference);
    let around = |racing: usize, test: fn(Row) -> bool| {
        let own = |row: usize| run.rows[row].agent == run.rows[racing].agent && test(run.rows[row]);
        let before: Vec<_> = (0..racing).filter(|row| own(*row)).collect();
        let after = (racing + 1..run.rows.len()).filter(|row| own(*row));
        let mut places: Vec<_> = after.map(|row| place(run.rows[row])).collect();
        places.retain(|found| before.iter().any(|row| place(run.rows[*row]) == *found));
        places
    };
    let ways = [(goal.first, goal.second), (goal.second, goal.first)];
    ways.into_iter().any(|(writer, reader)| {
        let (one, other) = (run.rows[writer], run.rows[reader]);
        let is_data = one.is_plain() && other.is_plain() && one.writes() && other.reads();
        let reads = |row: Row| row.is_atomic() && row.reads();
        let read = around(reader, reads);
        let mut written = around(writer, Row::is_atomic_writer).into_iter();
        is_data && written.any(|place| read.contains(&place))
    })
}

fn change(rows: &[usize], edits: Vec<Edit>, reason: Reason) -> Change {
    Change {
        rows: rows.to_vec(),
        edits,
        reasons: vec![reason],
    }
}

/// What the rules of order ask of the rows besides happens-before: that they
/// are non-private and, after a write, one reference, of which there are two
/// to choose from. Memory of two classes is no one variable.
fn needed(checked: Facts, before: usize, after: usize) -> Vec<Vec<Change>> {
    let rows = &checked.run.rows;
    let all = instructions(checked.run);
    let of_line = |row: usize| -> Vec<usize> {
        let mut all = all.iter();
        let found = all.find(|instruction: &&Instruction| instruction.rows.contains(&row));
        found.map_or(vec![row], |instruction| instruction.rows.clone())
    };
    let mut changes = Vec::new();
    for row in [before, after] {
        if !rows[row].is_non_private() {
            let line = of_line(row);
            let private = line.iter().filter(|row| !rows[**row].is_non_private());
            let edit = |row: &usize| Edit::new(*row, Field::Flags, rows[*row].flags | NON_PRIVATE);
            let edits = private.map(edit).collect();
            changes.push(change(&line, edits, Reason::Private { row }));
        }
    }
    if !rows[before].writes() || rows[before].reference == rows[after].reference {
        return vec![changes];
    }
    if rows[before].class != rows[after].class {
        return Vec::new();
    }
    let to_one_reference = |row: usize, other: usize| {
        let line = of_line(row);
        let edit = |row: &usize| Edit::new(*row, Field::Reference, rows[other].reference);
        let edits = line.iter().map(edit).collect();
        let mut changes = changes.clone();
        changes.push(change(&line, edits, Reason::OtherReference { row, other }));
        changes
    };
    vec![
        to_one_reference(after, before),
        to_one_reference(before, after),
    ]
}

/// The narrowest scope that two rows' agents share, in which something is
/// made available.
fn shared_scope(run: &Run, before: usize, after: usize) -> u8 {
    let (one, other) = (run.rows[before].agent, run.rows[after].agent);
    let shared = |scope: &u8| run.share_scope(one, other, *scope);
    (SUBGROUP..=DEVICE).find(shared).unwrap_or(DEVICE)
}

/// The narrowest scope in which two rows' agents may meet. Agents of different
/// workgroups can't, and who meets in a workgroup elsewhere does so here.
fn meeting_scope(run: &Run, rows: [usize; 2], scope: u8) -> u8 {
    if scope > WORKGROUP {
        return scope;
    }
    let agents = rows.map(|row| run.rows[row].agent);
    let met = run.rows.iter().filter(|row| row.is_control_barrier());
    let met = met.filter(|row| agents.contains(&row.agent));
    let widest = met.map(|row| row.execution_scope()).max();
    scope.max(widest.unwrap_or(scope).min(WORKGROUP))
}

/// Rows that synchronize, in the order in which they are put in. Where agents
/// can meet they needn't wait for each other.
fn synchronizations(
    checked: Facts,
    run: &Run,
    before: usize,
    after: usize,
) -> Vec<(Reason, Vec<Insertion>)> {
    let scope = shared_scope(run, before, after);
    let classes = run.rows[before].class_bit() | run.rows[after].class_bit();
    let mut found = Vec::new();
    for scope in meeting_scope(run, [before, after], scope)..=WORKGROUP {
        let reason = Reason::NoMeeting {
            before,
            after,
            scope,
            classes,
        };
        let all = gatherings(checked, run, (before, after), scope, classes);
        found.extend(all.into_iter().map(|insertions| (reason, insertions)));
    }
    if let Some(insertions) = handshake(run, [before, after], scope, classes) {
        let reason = Reason::NoHandshake {
            before,
            after,
            scope,
            classes,
        };
        found.push((reason, insertions));
    }
    found
}

/// A flag of its own, written by a release and read by an acquire.
fn handshake(
    run: &Run,
    [before, after]: [usize; 2],
    scope: u8,
    classes: u8,
) -> Option<Vec<Insertion>> {
    let flag = Row {
        scope,
        classes,
        length: 4,
        start: free_place(run)?,
        reference: free_reference(run)?,
        source: INITIAL,
        ..Row::default()
    };
    let release = Insertion {
        place: before + 1,
        row: Row {
            kind: ATOMIC_WRITE,
            agent: run.rows[before].agent,
            order: RELEASE,
            flags: NON_PRIVATE | MAKE_AVAILABLE,
            rank: 1,
            ..flag
        },
    };
    let mut acquire = Insertion {
        place: release.moved(after),
        row: Row {
            kind: ATOMIC_READ,
            agent: run.rows[after].agent,
            order: ACQUIRE,
            flags: NON_PRIVATE | MAKE_VISIBLE,
            ..flag
        },
    };
    acquire.row.source = acquire.moved(release.place) as u16;
    Some(vec![release, acquire])
}

/// Four bytes that nothing accesses.
fn free_place(run: &Run) -> Option<u16> {
    let is_free = |start: &u16| {
        let end = u32::from(*start) + 4;
        run.rows.iter().all(|row| {
            !row.is_access() || row.end_byte() <= u32::from(*start) || row.first_byte() >= end
        })
    };
    (0..=u16::MAX - 3).step_by(4).find(is_free)
}

fn free_reference(run: &Run) -> Option<u16> {
    (0..=u16::MAX).find(|reference| {
        let mut accesses = run.rows.iter().filter(|row| row.is_access());
        accesses.all(|row| row.reference != *reference)
    })
}
