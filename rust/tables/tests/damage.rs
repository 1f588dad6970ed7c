//! Damage on damage: a table may be repaired or damaged again once a row names
//! an agent that isn't there.

use tables::{damaged_hosted, Random, Size};

/// Seeds whose table has such a row when its neighbours are compared.
const SEEDS: [u64; 3] = [356_148, 1_590_085, 3_335_893];

#[test]
fn a_row_of_no_agent_shares_no_scope() {
    for seed in SEEDS {
        let table = damaged_hosted(&mut Random::new(seed), Size::of(2, 6));
        let (agents, rows) = (table[5], usize::from(table[6]));
        let begin = 8 + 8 * usize::from(agents);
        let mut rows = (0..rows).map(|row| table[begin + 16 * row + 1]);
        assert!(rows.any(|agent| agent >= agents), "{table:?}");
    }
}
