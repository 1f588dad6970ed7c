//! Answers with availability and visibility chains in words.

mod common;

use common::{example, with_chains, Second};
use draw::draw;
use mend::{stepped, Goal, Judge, Notes};
use second::Chains;
use tables::{chained, Random, Size};
use words::{explain, explain_noted, Shown};

/// With the switch a chain's elements are named; without it the pair races.
#[test]
fn a_chain_is_named_element_by_element() {
    for (name, part) in [
        (
            "chain-available",
            "is made available by row 1 in workgroup scope and row 3 in ",
        ),
        ("chain-visible", "and visible to row 5 by row 2 in "),
    ] {
        let table = example(name);
        let mut judge = Second::with(Chains::On);
        let on = explain_noted(&table, &Notes::default(), &mut judge, true).text();
        assert!(on.starts_with("race-free\n"), "{name}: {on}");
        assert!(on.contains(part), "{name}: {on}");
        let off = explain(&table, &mut Second::new()).text();
        assert!(off.starts_with("race 0 5 0\n"), "{name}: {off}");
        let mut second = Second::with(Chains::On);
        assert!(draw(&table, &mut second, false)
            .unwrap()
            .contains("Race-free"));
    }
}

/// Every order has its words and its path, whose moments happen before each
/// other; L3 lacks nothing exactly where it holds.
#[test]
fn orders_by_chains_have_words() {
    let mut random = Random::new(371);
    let (mut long, mut short) = (0, 0);
    for _ in 0..1600 {
        let table = chained(&mut random, Size::of(4, 14)).bytes();
        with_chains(Chains::On, &table, |checked| {
            let rows = checked.run.rows.len();
            let pairs = (0..rows * rows).map(|pair| (pair / rows, pair % rows));
            for (x, y) in pairs.filter(|(x, y)| x != y) {
                for byte in checked.shared_bytes(x, y) {
                    let holds = checked.state.rules_at(x, y, byte);
                    let lacks = checked.lacks(3, x, y, byte);
                    assert_eq!(lacks.is_empty(), holds[2], "{x} {y} {lacks:?}");
                    let ordered = checked.ordered(x, y, byte);
                    assert_eq!(ordered.is_some(), holds.contains(&true));
                    let path = ordered.map(|ordered| ordered.path).unwrap_or_default();
                    for step in path.windows(2) {
                        assert!(checked.state.happens_before(step[0], step[1]));
                    }
                    long += usize::from(path.len() > 2);
                    short += usize::from(path.len() == 2);
                }
            }
        });
    }
    assert!(long > 100 && short > 1000, "{long} {short}");
}

/// What is offered with chains on is a cure with chains on.
#[test]
fn cures_with_chains_are_cures() {
    let mut second = Second::with(Chains::On);
    let mut random = Random::new(372);
    let mut cures = 0;
    for _ in 0..600 {
        let table = chained(&mut random, Size::of(4, 10)).bytes();
        let told = explain(&table, &mut second);
        let Shown::Race(goal) = told.shown else {
            continue;
        };
        let is_told = |told: &str| told.contains("\nChains are on: none of several");
        assert!(is_told(&told.text()));
        assert!(!is_told(&explain(&table, &mut Second::new()).text()));
        for cure in &told.cures {
            let changed = stepped(&table, &cure.steps()).unwrap();
            assert_eq!(second.check(&changed), cure.answer.borrowed());
            let moved = cure.insertions.iter().fold(goal, |goal, new| Goal {
                first: new.moved(goal.first),
                second: new.moved(goal.second),
                ..goal
            });
            let is_race = with_chains(Chains::On, &changed, |checked| {
                let state = checked.state;
                state.races_at(moved.first, moved.second, moved.byte)
            });
            assert!(!is_race, "{}", told.text());
            cures += 1;
        }
    }
    assert!(cures > 100, "{cures}");
}
