//! The four edges, axioms A and B, and the canonical cycle.

use crate::answer::List;
use crate::state::{row_pair, State};
use crate::table::INITIAL;
use crate::MAX_ROWS;

/// No way from a row to the cycle's first row.
const UNREACHED: usize = usize::MAX;

impl State {
    /// Lowest number of an edge between two rows, 0 if there is none.
    fn lowest_edge(&self, x: usize, y: usize) -> u8 {
        if self.edge_1_location_order(x, y) {
            1
        } else if self.edge_2_modification_order(x, y) {
            2
        } else if self.edge_3_source_to_reader(x, y) {
            3
        } else if self.edge_4_from_reads(x, y) {
            4
        } else {
            0
        }
    }

    /// Edge 1: location order at any byte.
    fn edge_1_location_order(&self, x: usize, y: usize) -> bool {
        (self.rows[x].first_byte()..self.rows[x].end_byte())
            .any(|byte| self.location_order(x, y, byte))
    }

    /// Edge 2: scoped modification order.
    fn edge_2_modification_order(&self, x: usize, y: usize) -> bool {
        self.m3_modification_order(x, y)
    }

    /// Edge 3: source to reader.
    fn edge_3_source_to_reader(&self, x: usize, y: usize) -> bool {
        self.source_row(y) == Some(x)
    }

    /// Edge 4, from-reads: a reader to another row that follows its source in
    /// scoped order, or, if it read the initial value, to any other writer
    /// overlapping it.
    fn edge_4_from_reads(&self, x: usize, y: usize) -> bool {
        let (reader, other) = (self.rows[x], self.rows[y]);
        if x == y || !reader.reads() {
            return false;
        }
        match self.source_row(x) {
            Some(source) => self.m3_modification_order(source, y),
            None => reader.source == INITIAL && other.writes() && reader.shares_a_byte_with(other),
        }
    }

    /// Axiom A: no cycle of edges. Gives the canonical cycle where it is broken.
    pub(crate) fn axiom_a_broken_by(&mut self) -> Option<(List, List)> {
        self.relate_edges();
        self.relate_reaches();
        (0..self.row_count)
            .find(|row| self.reaches[row_pair(*row, *row)])
            .map(|lowest| self.canonical_cycle(lowest))
    }

    fn relate_edges(&mut self) {
        for x in 0..self.row_count {
            for y in 0..self.row_count {
                self.edges[row_pair(x, y)] = self.lowest_edge(x, y);
            }
        }
    }

    fn edge(&self, x: usize, y: usize) -> bool {
        self.edges[row_pair(x, y)] != 0
    }

    /// Lowest edge number between rows of the last checked table, 0 if none.
    pub fn edge_number(&self, x: usize, y: usize) -> u8 {
        if x < self.row_count && y < self.row_count {
            self.edges[row_pair(x, y)]
        } else {
            0
        }
    }

    /// Warshall's closure of the edges.
    fn relate_reaches(&mut self) {
        for x in 0..self.row_count {
            for y in 0..self.row_count {
                self.reaches[row_pair(x, y)] = self.edge(x, y);
            }
        }
        for middle in 0..self.row_count {
            for x in 0..self.row_count {
                if !self.reaches[row_pair(x, middle)] {
                    continue;
                }
                for y in 0..self.row_count {
                    if self.reaches[row_pair(middle, y)] {
                        self.reaches[row_pair(x, y)] = true;
                    }
                }
            }
        }
    }

    /// The cycle through `lowest` of fewest rows and, of those, the least
    /// list of rows: every step goes to the lowest row that still gets back
    /// in the steps left.
    fn canonical_cycle(&self, lowest: usize) -> (List, List) {
        let steps_back = self.steps_back_to(lowest);
        let mut rows = List::new();
        let mut edges = List::new();
        let mut row = lowest;
        let mut steps_left = self.fewest_steps_round(lowest, &steps_back);
        while steps_left > 0 {
            steps_left -= 1;
            let next = (0..self.row_count)
                .find(|next| self.edge(row, *next) && steps_back[*next] == steps_left)
                .expect("a row on a cycle has a next row");
            rows.push(row as u16);
            edges.push(u16::from(self.edges[row_pair(row, next)]));
            row = next;
        }
        (rows, edges)
    }

    /// Fewest edges of a cycle through a row.
    fn fewest_steps_round(&self, lowest: usize, steps_back: &[usize; MAX_ROWS]) -> usize {
        (0..self.row_count)
            .filter(|next| self.edge(lowest, *next) && steps_back[*next] != UNREACHED)
            .map(|next| 1 + steps_back[next])
            .min()
            .expect("the row is on a cycle")
    }

    /// For each row, the fewest edges from it to `goal`; 0 for `goal` itself.
    fn steps_back_to(&self, goal: usize) -> [usize; MAX_ROWS] {
        let mut steps = [UNREACHED; MAX_ROWS];
        steps[goal] = 0;
        for count in 1..self.row_count {
            for row in 0..self.row_count {
                let is_one_further = (0..self.row_count)
                    .any(|next| self.edge(row, next) && steps[next] == count - 1);
                if steps[row] == UNREACHED && is_one_further {
                    steps[row] = count;
                }
            }
        }
        steps
    }

    /// Axiom B: no writer Z and byte of a reader Y whose source is a row have
    /// source before Z and Z before Y in location order at that byte. Gives
    /// the least Y, Z and byte where it is broken.
    pub(crate) fn axiom_b_broken_by(&self) -> Option<(u16, u16, u16)> {
        for reader in 0..self.row_count {
            let Some(source) = self.source_row(reader) else {
                continue;
            };
            for writer in 0..self.row_count {
                if let Some(byte) = self.overwritten_byte(source, writer, reader) {
                    return Some((reader as u16, writer as u16, byte as u16));
                }
            }
        }
        None
    }

    /// Axiom B: the lowest byte at which a writer comes between source and
    /// reader.
    fn overwritten_byte(&self, source: usize, writer: usize, reader: usize) -> Option<u32> {
        let row = self.rows[reader];
        (row.first_byte()..row.end_byte()).find(|byte| {
            self.rows[writer].writes()
                && self.location_order(source, writer, *byte)
                && self.location_order(writer, reader, *byte)
        })
    }
}
