//! The rows of a table moved past each other, each agent's own rows in their
//! order: the same run, as another recorder might have written it down.

use crate::builder::{Table, INITIAL};
use crate::mutation::reorder;
use crate::random::Random;

/// A table whose rows were moved.
pub struct Moved {
    pub table: Table,
    /// Where each row went.
    pub places: Vec<usize>,
}

impl Moved {
    /// The sources of the unmoved table's rows, as the moved table has them.
    pub fn sources(&self, sources: &[u16]) -> Vec<u16> {
        let mut moved = vec![INITIAL; sources.len()];
        for (row, source) in sources.iter().enumerate() {
            let place = self.places.get(usize::from(*source));
            moved[self.places[row]] = place.map_or(*source, |place| *place as u16);
        }
        moved
    }
}

/// Lists the rows by some interleaving of the agents, each of which is as
/// likely to come next as it has rows left.
pub fn moved(random: &mut Random, table: &Table) -> Moved {
    let mut left: Vec<usize> = (0..table.rows.len()).collect();
    let mut order = Vec::new();
    while !left.is_empty() {
        let agent = table.rows[random.pick(&left)].agent;
        let is_next = |row: &usize| table.rows[*row].agent == agent;
        let next = left.iter().position(is_next).expect("it has a row left");
        order.push(left.remove(next));
    }
    let mut places = vec![0; order.len()];
    for (place, row) in order.iter().enumerate() {
        places[*row] = place;
    }
    let mut table = table.clone();
    reorder(&mut table, &order);
    Moved { table, places }
}
