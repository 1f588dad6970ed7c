//! Mutations of a table, and the repair that keeps a mutated table admissible.

use crate::builder::{
    flags, kind, order, scope, sort, Build, Row, Table, BLANK, INITIAL, MAX_DEPENDENCIES,
};
use crate::counted::repair_run;
use crate::random::Random;

/// Changes one thing at random, then repairs what no longer fits.
pub(crate) fn mutate(random: &mut Random, table: &mut Table) {
    if table.rows.is_empty() {
        return;
    }
    match random.below(21) {
        0 => change_place_numbers(random, table),
        1 => swap_neighbours(random, table),
        2 => swap_ranks(random, table),
        3 | 4 => change_source(random, table),
        5 => change_reference(random, table),
        6 => change_instance(random, table),
        _ => {
            let place = random.below(table.rows.len());
            let agent_count = table.agents.len();
            change_field(random, &mut table.rows[place], agent_count);
        }
    }
    repair(random, table);
}

fn change_field(random: &mut Random, row: &mut Row, agent_count: usize) {
    match random.below(10) {
        0 => row.flags ^= flags::NON_PRIVATE,
        1 | 2 => row.flags ^= flags::MAKE_AVAILABLE,
        3 | 4 => row.flags ^= flags::MAKE_VISIBLE,
        5 => row.scope = random.below(5) as u8,
        6 => row.classes ^= 1 << random.below(4),
        7 => row.order = random.below(4) as u8,
        8 => row.agent = random.below(agent_count) as u8,
        _ => change_access(random, row),
    }
}

fn change_access(random: &mut Random, row: &mut Row) {
    if !row.is_access() {
        return;
    }
    match random.below(4) {
        0 => row.kind = random.below(5) as u8,
        1 => row.length = random.between(1, 16) as u8,
        2 if row.is_plain() => {
            row.start = row
                .start
                .wrapping_add(random.pick(&[1, 2, 4, 65535, 65534]));
        }
        2 => row.start = row.start.wrapping_add(random.pick(&[4, 8, 65532, 65528])),
        _ => row.rank = row.rank.wrapping_add(random.pick(&[1, 2, 65535])),
    }
}

fn change_place_numbers(random: &mut Random, table: &mut Table) {
    let agent = random.below(table.agents.len());
    table.agents[agent][random.below(3)] = random.below(3) as u16;
}

/// Moves a control barrier to another instance, or changes the execution
/// scope of all rows of its instance.
fn change_instance(random: &mut Random, table: &mut Table) {
    let barriers = rows_that(table, Row::is_control_barrier);
    if barriers.is_empty() {
        return;
    }
    let (row, other) = (random.pick(&barriers), random.pick(&barriers));
    if random.percent(50) {
        table.rows[row].start = table.rows[other].start;
        table.rows[row].class = table.rows[other].class;
        return;
    }
    let barrier = table.rows[row];
    let scope = random.below(5) as u8;
    for other in &mut table.rows {
        if other.meets(barrier) {
            other.class = scope;
        }
    }
}

fn change_reference(random: &mut Random, table: &mut Table) {
    let place = random.below(table.rows.len());
    let other = table.rows[random.below(table.rows.len())];
    if table.rows[place].is_access() && other.is_access() {
        table.rows[place].reference = other.reference;
    }
}

fn swap_ranks(random: &mut Random, table: &mut Table) {
    let first = random.below(table.rows.len());
    let second = random.below(table.rows.len());
    if table.rows[first].is_atomic_writer() && table.rows[second].is_atomic_writer() {
        let rank = table.rows[first].rank;
        table.rows[first].rank = table.rows[second].rank;
        table.rows[second].rank = rank;
    }
}

fn swap_neighbours(random: &mut Random, table: &mut Table) {
    if table.rows.len() > 1 {
        let place = random.below(table.rows.len() - 1);
        let mut order: Vec<usize> = (0..table.rows.len()).collect();
        order.swap(place, place + 1);
        reorder(table, &order);
    }
}

/// Lists the rows in another order; sources and dependencies go with their
/// rows.
pub(crate) fn reorder(table: &mut Table, order: &[usize]) {
    let mut new_places = vec![0; order.len()];
    for (place, old) in order.iter().enumerate() {
        new_places[*old] = place as u16;
    }
    let rows = order.iter().map(|old| {
        let mut row = table.rows[*old];
        if let Some(place) = new_places.get(usize::from(row.source)) {
            row.source = *place;
        }
        row
    });
    table.rows = rows.collect();
    for row in table.dependencies.iter_mut().flatten() {
        if let Some(place) = new_places.get(usize::from(*row)) {
            *row = *place;
        }
    }
}

/// Gives a reader another source that fits, if there is one.
fn change_source(random: &mut Random, table: &mut Table) {
    let readers = rows_that(table, format::Row::reads);
    if readers.is_empty() {
        return;
    }
    let reader = random.pick(&readers);
    let sources = fitting_sources(table, reader);
    table.rows[reader].source = random.pick(&sources);
}

/// Gives a reader an older plain source of its bytes, so that it is
/// overwritten. Where there is none, a plain source is written once more.
/// Tells whether it could do either.
pub(crate) fn make_stale(random: &mut Random, table: &mut Table, most_rows: usize) -> bool {
    let pairs = source_changes(table, |table, reader, source| {
        let latest = table.rows[reader].source;
        source < latest && latest < BLANK && table.rows[usize::from(source)].is_plain()
    });
    if !pairs.is_empty() {
        let (reader, source) = random.pick(&pairs);
        table.rows[reader].source = source;
        return true;
    }
    table.rows.len() < most_rows && write_again(random, table)
}

/// Writes a plain source once more, right after it, for nobody to read.
fn write_again(random: &mut Random, table: &mut Table) -> bool {
    let is_plain_row = |source: u16| {
        let row = table.rows.get(usize::from(source));
        row.is_some_and(|row| row.is_plain())
    };
    let readers = rows_that(table, |row| row.reads() && is_plain_row(row.source));
    if !readers.is_empty() {
        let source = usize::from(table.rows[random.pick(&readers)].source);
        table.insert(source + 1, table.rows[source]);
        depend_alike(table, source as u16, source as u16 + 1);
    }
    !readers.is_empty()
}

/// Gives a row the dependencies that another has, as far as there is room.
fn depend_alike(table: &mut Table, row: u16, other: u16) {
    let alike = |from: u16| if from == row { other } else { from };
    let all = table.dependencies.iter();
    let added: Vec<[u16; 2]> = all
        .filter(|pair| pair.contains(&row))
        .map(|pair| pair.map(alike))
        .collect();
    table.dependencies.extend(added);
    table.dependencies.truncate(MAX_DEPENDENCIES);
}

/// Takes away one thing that rows of different agents may be ordered by.
pub(crate) fn weaken(random: &mut Random, table: &mut Table) {
    let rows = rows_that(table, |row| row.order != order::RELAXED || row.flags > 1);
    let barriers = rows_that(table, Row::is_control_barrier);
    if !barriers.is_empty() && random.percent(20) {
        leave_instance(random, table, &barriers);
        return repair(random, table);
    }
    if rows.is_empty() {
        return move_to_another_agent(random, table);
    }
    let row = &mut table.rows[random.pick(&rows)];
    match random.below(10) {
        0 | 1 => row.flags &= flags::NON_PRIVATE,
        2..=4 => row.scope = row.scope.min(random.below(4) as u8),
        5 => row.classes &= 1 << random.below(4),
        6 | 7 => row.classes &= !(1 << random.below(4)),
        8 => row.order = order::RELAXED,
        _ => make_one_private(random, table),
    }
    repair(random, table);
}

/// Moves a control barrier, or another row of its instance, to an instance of
/// its own.
fn leave_instance(random: &mut Random, table: &mut Table, barriers: &[usize]) {
    let row = random.pick(barriers);
    table.rows[row].start = free_instance(table);
}

/// An instance number that no control barrier has.
fn free_instance(table: &Table) -> u16 {
    let is_taken = |instance: &u16| {
        let barriers = table.rows.iter().filter(|row| row.is_control_barrier());
        barriers.into_iter().any(|row| row.start == *instance)
    };
    (100..=u16::MAX)
        .find(|instance| !is_taken(instance))
        .expect("there are more numbers than rows")
}

fn move_to_another_agent(random: &mut Random, table: &mut Table) {
    if !table.rows.is_empty() {
        let row = random.below(table.rows.len());
        table.rows[row].agent = random.below(table.agents.len()) as u8;
        repair(random, table);
    }
}

fn make_one_private(random: &mut Random, table: &mut Table) {
    let rows = rows_that(table, Row::is_plain);
    if !rows.is_empty() {
        let row = random.pick(&rows);
        table.rows[row] = table.rows[row].private();
    }
}

/// Gives a reader the initial value or a later source than its own, and
/// tells whether it could.
pub(crate) fn make_cyclic(random: &mut Random, table: &mut Table) -> bool {
    let pairs = source_changes(table, |table, reader, source| {
        let own = table.rows[reader].source;
        source != own && (source == INITIAL || own == INITIAL || source > own)
    });
    if !pairs.is_empty() {
        let (reader, source) = random.pick(&pairs);
        table.rows[reader].source = source;
    }
    !pairs.is_empty()
}

fn source_changes(table: &Table, wanted: impl Fn(&Table, usize, u16) -> bool) -> Vec<(usize, u16)> {
    let mut pairs = Vec::new();
    for reader in rows_that(table, format::Row::reads) {
        for source in fitting_sources(table, reader) {
            if wanted(table, reader, source) {
                pairs.push((reader, source));
            }
        }
    }
    pairs
}

pub(crate) fn rows_that(table: &Table, test: impl Fn(Row) -> bool) -> Vec<usize> {
    (0..table.rows.len())
        .filter(|row| test(table.rows[*row]))
        .collect()
}

/// The initial value and the other writers that cover a reader.
fn fitting_sources(table: &Table, reader: usize) -> Vec<u16> {
    let mut sources = vec![INITIAL];
    for (place, row) in table.rows.iter().enumerate() {
        if place != reader && row.writes() && row.covers(table.rows[reader]) {
            sources.push(place as u16);
        }
    }
    sources
}

/// Makes every row admissible again, changing as little as it can.
pub(crate) fn repair(random: &mut Random, table: &mut Table) {
    for place in 0..table.rows.len() {
        repair_agent(random, table, place);
    }
    for row in &mut table.rows {
        repair_kind_fit(random, row);
        repair_bytes(row);
    }
    for place in 0..table.rows.len() {
        repair_class(table, place);
        repair_source(random, table, place);
        repair_run(table, place);
        repair_rank(table, place);
        repair_instance(table, place);
    }
}

/// Gives a row to an agent that may have it, if there is one, and makes it
/// what its agent may have otherwise.
fn repair_agent(random: &mut Random, table: &mut Table, place: usize) {
    let row = table.rows[place];
    let fits = |agent: u8| match table.sort(agent) {
        sort::HOST => row.is_plain(),
        sort::QUEUE => row.is_queue_operation(),
        _ => !row.is_queue_operation(),
    };
    if fits(row.agent) {
        return;
    }
    let fitting: Vec<u8> = (0..table.agents.len() as u8).filter(|x| fits(*x)).collect();
    if !fitting.is_empty() {
        table.rows[place].agent = random.pick(&fitting);
    } else if table.sort(row.agent) == sort::QUEUE {
        table.rows[place] = Row::queue(row.agent, random.between(7, 12) as u8);
    } else {
        table.rows[place] = Row::read(row.agent, INITIAL).at(0, 1).reference(9999);
    }
}

fn repair_kind_fit(random: &mut Random, row: &mut Row) {
    if row.is_queue_operation() {
        *row = Row::queue(row.agent, row.kind);
        return;
    }
    match row.kind {
        kind::PLAIN_READ | kind::PLAIN_WRITE => repair_plain(row),
        kind::BARRIER => repair_barrier(row),
        kind::CONTROL_BARRIER => row.flags &= !flags::NON_PRIVATE,
        _ => repair_atomic(row),
    }
    if !row.is_plain() {
        repair_semantics(random, row);
    }
    if !row.is_atomic_writer() {
        row.rank = 0;
    }
    if !row.reads() {
        row.source = INITIAL;
    }
}

fn repair_plain(row: &mut Row) {
    row.order = order::RELAXED;
    row.classes = 0;
    row.flags &= if row.kind == kind::PLAIN_READ {
        !flags::MAKE_AVAILABLE
    } else {
        !flags::MAKE_VISIBLE
    };
    // A row made private loses its flag, or it could never become private.
    if row.flags & flags::NON_PRIVATE == 0 {
        row.flags = 0;
    }
    if row.flags & !flags::NON_PRIVATE == 0 {
        row.scope = scope::INVOCATION;
    }
}

fn repair_barrier(row: &mut Row) {
    row.flags &= !flags::NON_PRIVATE;
    if row.order == order::RELAXED {
        row.order = order::BOTH;
    }
}

fn repair_atomic(row: &mut Row) {
    row.flags |= flags::NON_PRIVATE;
    let allowed = match row.kind {
        kind::ATOMIC_READ => [order::RELAXED, order::ACQUIRE],
        kind::ATOMIC_WRITE => [order::RELAXED, order::RELEASE],
        _ => return,
    };
    if !allowed.contains(&row.order) {
        row.order = allowed[usize::from(row.order == order::BOTH)];
    }
}

fn repair_semantics(random: &mut Random, row: &mut Row) {
    if row.order == order::RELAXED {
        row.classes = 0;
    } else if row.classes == 0 {
        row.classes = random.between(1, 15) as u8;
    }
    if !matches!(row.order, order::RELEASE | order::BOTH) {
        row.flags &= !flags::MAKE_AVAILABLE;
    }
    if !matches!(row.order, order::ACQUIRE | order::BOTH) {
        row.flags &= !flags::MAKE_VISIBLE;
    }
}

fn repair_bytes(row: &mut Row) {
    if row.is_atomic() {
        row.length = if row.length < 8 { 4 } else { 8 };
        row.start -= row.start % u16::from(row.length);
    }
    if row.is_access() {
        row.start = row.start.min(u16::MAX - u16::from(row.length) + 1);
    }
}

/// The first access by a reference decides its class.
fn repair_class(table: &mut Table, place: usize) {
    let row = table.rows[place];
    let first = table
        .rows
        .iter()
        .find(|other| other.is_access() && other.reference == row.reference);
    if let (true, Some(first)) = (row.is_access(), first) {
        table.rows[place].class = first.class;
    }
}

fn repair_source(random: &mut Random, table: &mut Table, place: usize) {
    let row = table.rows[place];
    if row.reads() && row.source != BLANK {
        let sources = fitting_sources(table, place);
        if !sources.contains(&row.source) {
            table.rows[place].source = random.pick(&sources);
        }
    }
}

/// Raises a rank until no earlier writer in scope has it.
fn repair_rank(table: &mut Table, place: usize) {
    while table.rows[place].is_atomic_writer()
        && (0..place).any(|earlier| {
            table.rows[earlier].is_atomic_writer()
                && table.rows[earlier].rank == table.rows[place].rank
                && in_one_order(table, earlier, place)
        })
    {
        table.rows[place].rank = table.rows[place].rank.wrapping_add(1);
    }
}

/// Gives a control barrier that doesn't fit in its instance one of its own.
fn repair_instance(table: &mut Table, place: usize) {
    let row = table.rows[place];
    let fits = (0..place).all(|earlier| {
        let other = table.rows[earlier];
        !other.meets(row)
            || (other.class == row.class
                && other.agent != row.agent
                && share(table, other.agent, row.agent, row.class))
    });
    if !fits {
        table.rows[place].start = free_instance(table);
    }
}

/// Whether two atomics are of one place and share both their scopes.
pub(crate) fn in_one_order(table: &Table, first: usize, second: usize) -> bool {
    let (x, y) = (table.rows[first], table.rows[second]);
    (x.start, x.length, x.reference) == (y.start, y.length, y.reference)
        && share(table, x.agent, y.agent, x.scope)
        && share(table, x.agent, y.agent, y.scope)
}

fn share(table: &Table, first: u8, second: u8, scope: u8) -> bool {
    if [first, second]
        .iter()
        .any(|agent| table.sort(*agent) != sort::SHADER)
    {
        return false;
    }
    let (x, y) = (usize::from(first), usize::from(second));
    match scope {
        scope::INVOCATION => x == y,
        scope::DEVICE => true,
        // A table that is damaged already may have no such scope.
        _ if scope > scope::DEVICE => false,
        _ => {
            let numbers = usize::from(scope::DEVICE - scope);
            // Nor such an agent.
            match (table.agents.get(x), table.agents.get(y)) {
                (Some(x), Some(y)) => x[..numbers] == y[..numbers],
                _ => false,
            }
        }
    }
}
