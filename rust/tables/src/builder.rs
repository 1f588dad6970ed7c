//! Table builder: rows and agents by name, bytes out of them.

pub use format::{classes, flags, kind, order, scope, sort};
pub use format::{Row, BLANK, INITIAL, MAX_AGENTS, MAX_DEPENDENCIES, MAX_ROWS};

/// An access of four bytes at byte 0 by reference 1 of class Uniform;
/// non-private, without order, flags or rank.
fn access(kind: u8, agent: u8) -> Row {
    Row {
        kind,
        agent,
        flags: flags::NON_PRIVATE,
        length: 4,
        reference: 1,
        source: INITIAL,
        ..Row::default()
    }
}

/// Rows by name, and with other fields.
pub trait Build: Into<Row> {
    fn read(agent: u8, source: u16) -> Row {
        Row {
            source,
            ..access(kind::PLAIN_READ, agent)
        }
    }

    fn write(agent: u8) -> Row {
        access(kind::PLAIN_WRITE, agent)
    }

    /// A relaxed atomic read in device scope.
    fn atomic_read(agent: u8, source: u16) -> Row {
        Row {
            source,
            scope: scope::DEVICE,
            ..access(kind::ATOMIC_READ, agent)
        }
    }

    /// A relaxed atomic write in device scope.
    fn atomic_write(agent: u8, rank: u16) -> Row {
        Row {
            rank,
            scope: scope::DEVICE,
            ..access(kind::ATOMIC_WRITE, agent)
        }
    }

    /// A relaxed read-modify-write in device scope.
    fn rmw(agent: u8, source: u16, rank: u16) -> Row {
        Row {
            source,
            rank,
            scope: scope::DEVICE,
            ..access(kind::RMW, agent)
        }
    }

    /// A barrier in device scope.
    fn barrier(agent: u8, order: u8, classes: u8) -> Row {
        Row {
            order,
            classes,
            scope: scope::DEVICE,
            flags: 0,
            length: 0,
            reference: 0,
            ..access(kind::BARRIER, agent)
        }
    }

    /// A control barrier in device scope, without memory semantics. Its
    /// execution scope stands in the class's place, its instance in the start's.
    fn control_barrier(agent: u8, execution_scope: u8, instance: u16) -> Row {
        Row {
            kind: kind::CONTROL_BARRIER,
            class: execution_scope,
            start: instance,
            ..Row::barrier(agent, order::RELAXED, 0)
        }
    }

    /// An operation of a queue agent, which has nothing but its kind.
    fn queue(agent: u8, kind: u8) -> Row {
        Row {
            kind,
            ..Row::barrier(agent, order::RELAXED, 0).scope(scope::INVOCATION)
        }
    }

    fn at(self, start: u16, length: u8) -> Row {
        Row {
            start,
            length,
            ..self.into()
        }
    }

    fn reference(self, reference: u16) -> Row {
        Row {
            reference,
            ..self.into()
        }
    }

    fn class(self, class: u8) -> Row {
        Row {
            class,
            ..self.into()
        }
    }

    fn scope(self, scope: u8) -> Row {
        Row {
            scope,
            ..self.into()
        }
    }

    fn private(self) -> Row {
        let row = self.into();
        let flags = row.flags & !flags::NON_PRIVATE;
        Row { flags, ..row }
    }

    fn make_available(self) -> Row {
        let row = self.into();
        let flags = row.flags | flags::MAKE_AVAILABLE;
        Row { flags, ..row }
    }

    fn make_visible(self) -> Row {
        let row = self.into();
        let flags = row.flags | flags::MAKE_VISIBLE;
        Row { flags, ..row }
    }

    fn order(self, order: u8, classes: u8) -> Row {
        Row {
            order,
            classes,
            ..self.into()
        }
    }

    fn release(self, classes: u8) -> Row {
        self.order(order::RELEASE, classes)
    }

    fn acquire(self, classes: u8) -> Row {
        self.order(order::ACQUIRE, classes)
    }
}

impl Build for Row {}

/// A table: its version, the agents' place numbers, then the rows. Only
/// version 3 has sorts of agents and dependencies.
#[derive(Clone, Debug, PartialEq, Eq)]
pub struct Table {
    pub version: u8,
    pub agents: Vec<[u16; 3]>,
    /// Each agent's sort; where there is none it is a shader.
    pub sorts: Vec<u16>,
    pub rows: Vec<Row>,
    /// Pairs of rows of which the first system-synchronizes-with the second.
    pub dependencies: Vec<[u16; 2]>,
}

impl Default for Table {
    fn default() -> Table {
        Table::new(&[], &[])
    }
}

impl Table {
    /// A table of version 1.
    pub fn new(agents: &[[u16; 3]], rows: &[Row]) -> Table {
        Table {
            version: 1,
            agents: agents.to_vec(),
            sorts: Vec::new(),
            rows: rows.to_vec(),
            dependencies: Vec::new(),
        }
    }

    /// Agents of one family and workgroup, each in a subgroup of its own.
    pub fn of_one_workgroup(agent_count: u16, rows: &[Row]) -> Table {
        let agents: Vec<[u16; 3]> = (0..agent_count).map(|agent| [0, 0, agent]).collect();
        Table::new(&agents, rows)
    }

    /// The same rows in a version whose ranks are counted.
    pub fn counted(self) -> Table {
        Table { version: 2, ..self }
    }

    /// A table of version 3, its agents' places all alike.
    pub fn with_sorts(sorts: &[u16], rows: &[Row], dependencies: &[[u16; 2]]) -> Table {
        Table {
            version: 3,
            sorts: sorts.to_vec(),
            dependencies: dependencies.to_vec(),
            ..Table::new(&vec![[0, 0, 0]; sorts.len()], rows)
        }
    }

    /// An agent's sort.
    pub fn sort(&self, agent: u8) -> u16 {
        let sort = self.sorts.get(usize::from(agent));
        sort.copied().unwrap_or(sort::SHADER)
    }

    /// Puts a row in; sources and dependencies at or past its place move on by
    /// one.
    pub fn insert(&mut self, place: usize, row: Row) {
        for moved in &mut self.rows {
            let is_row = usize::from(moved.source) < usize::from(BLANK);
            if is_row && usize::from(moved.source) >= place {
                moved.source += 1;
            }
        }
        for row in self.dependencies.iter_mut().flatten() {
            *row += u16::from(usize::from(*row) >= place);
        }
        self.rows.insert(place, row);
    }

    pub fn bytes(&self) -> Vec<u8> {
        let has_hosts = self.version == 3;
        let mut bytes = vec![0; 4];
        bytes.extend([
            self.version,
            self.agents.len() as u8,
            self.rows.len() as u8,
            0,
        ]);
        for (agent, places) in self.agents.iter().enumerate() {
            let sort = has_hosts.then(|| self.sort(agent as u8));
            push_numbers(&mut bytes, places.iter().copied().chain(sort));
        }
        for row in &self.rows {
            bytes.extend(row.bytes());
        }
        if has_hosts {
            let count = self.dependencies.len() as u16;
            let rows = self.dependencies.iter().flatten().copied();
            push_numbers(&mut bytes, std::iter::once(count).chain(rows));
        }
        let following = bytes.len() as u32 - 4;
        bytes[..4].copy_from_slice(&following.to_be_bytes());
        bytes
    }
}

fn push_numbers(bytes: &mut Vec<u8>, numbers: impl Iterator<Item = u16>) {
    numbers.for_each(|number| bytes.extend(number.to_be_bytes()));
}
