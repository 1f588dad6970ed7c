//! What a rule lacks: nothing exactly where it holds.

mod common;

use common::{example, generated, with_relations};
use tables::{hosted, Random, Size};
use words::Checked;

/// Compares all rules of all pairs at all shared bytes, and gives how many
/// held and how many didn't.
fn compare(checked: Checked) -> [usize; 2] {
    let mut counts = [0, 0];
    let rows = checked.run.rows.len();
    let pairs = (0..rows).flat_map(|x| (0..rows).map(move |y| (x, y)));
    for (x, y) in pairs.filter(|(x, y)| x != y) {
        for byte in checked.shared_bytes(x, y) {
            let [l1, l2, l3] = checked.state.rules_at(x, y, byte);
            let [l4, l5] = checked.state.system_rules(x, y);
            let rules = [l1, l2, l3, l4, l5];
            for rule in 1..=5 {
                let lacks = checked.lacks(rule, x, y, byte);
                let holds = rules[usize::from(rule) - 1];
                assert_eq!(lacks.is_empty(), holds, "L{rule} {x} {y} {byte}: {lacks:?}");
                counts[usize::from(holds)] += 1;
            }
            let order = checked.ordered(x, y, byte);
            let first = rules.iter().position(|holds| *holds);
            assert_eq!(
                order.map(|order| usize::from(order.rule)),
                first.map(|rule| rule + 1)
            );
        }
    }
    counts
}

#[test]
fn a_rule_lacks_nothing_exactly_where_it_holds() {
    let mut sum = [0, 0];
    let tables = generated(311, 1500, 2, 10).into_iter();
    for table in tables.chain(generated(312, 60, 20, 30)) {
        let counts = with_relations(&table, compare);
        sum = [sum[0] + counts[0], sum[1] + counts[1]];
    }
    assert!(sum[0] > 10_000 && sum[1] > 5_000, "{sum:?}");
}

/// The same with hosts and queues, where L4 and L5 hold too.
#[test]
fn a_rule_of_hosts_lacks_nothing_exactly_where_it_holds() {
    let mut random = Random::new(313);
    let mut sum = [0, 0];
    let mut by_system = [0, 0];
    for _ in 0..1200 {
        let table = hosted(&mut random, Size::of(3, 14)).bytes();
        let counts = with_relations(&table, |checked| {
            let rows = checked.run.rows.len();
            for pair in 0..rows * rows {
                let held = checked.state.system_rules(pair / rows, pair % rows);
                by_system[0] += usize::from(held[0]);
                by_system[1] += usize::from(held[1]);
            }
            compare(checked)
        });
        sum = [sum[0] + counts[0], sum[1] + counts[1]];
    }
    assert!(sum[0] > 10_000 && sum[1] > 1_000, "{sum:?}");
    assert!(by_system.iter().all(|count| *count > 50), "{by_system:?}");
}

fn nearest(name: &str, first: usize, second: usize, byte: u32) -> (u8, Vec<String>) {
    let near = with_relations(&example(name), |checked| {
        checked.nearest(first, second, byte)
    });
    (near.rule, near.lacks)
}

#[test]
fn the_examples_lack_what_they_were_made_to_lack() {
    for (name, second, rule, part) in [
        ("leak", 4, 3, "never made available to agent 1"),
        ("p-not-visible", 3, 3, "never made visible to agent 1"),
        ("p-private", 3, 3, "row 3 is private"),
        ("other-class", 3, 2, "row 1 names Workgroup"),
        ("q-cut", 4, 3, "none synchronizes"),
    ] {
        let (nearest_rule, lacks) = nearest(name, 0, second, 0);
        assert_eq!((nearest_rule, lacks.len()), (rule, 1), "{name}: {lacks:?}");
        assert!(lacks[0].contains(part), "{name}: {lacks:?}");
    }
    let (rule, lacks) = nearest("p-two-workgroups", 0, 3, 0);
    assert_eq!((rule, lacks.len()), (3, 3));
    assert!(lacks[0].contains("row 1 makes available in workgroup scope"));
    assert!(lacks[1].contains("row 2 makes visible in workgroup scope"));
}
