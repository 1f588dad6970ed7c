//! A race-free table: how many pairs conflict, by which rules they are ordered,
//! and why each is.

use crate::account::Ordered;
use crate::names;
use crate::told::Checked;
use mend::ranges;
use std::collections::{BTreeMap, HashMap};

/// Bytes of a pair that are ordered alike.
struct Stretch {
    first_byte: u32,
    last_byte: u32,
    before: usize,
    after: usize,
    ordered: Ordered,
}

/// How many pairs conflict and by which rules they are ordered; each pair and
/// its steps where all is wanted.
pub fn lines(checked: Checked, is_all: bool) -> Vec<String> {
    let pairs = Pairs::of(checked);
    let mut lines = pairs.summary();
    if is_all {
        lines.extend(pairs.one_by_one());
    } else if !pairs.others.is_empty() {
        lines.push("--all has each pair and the steps between its rows.".to_string());
    }
    lines
}

/// Each pair and its steps, if these are no more than so many lines.
pub fn steps_up_to(checked: Checked, most: usize) -> Option<Vec<String>> {
    let pairs = Pairs::of(checked);
    // A pair has three lines at the least.
    if 3 * pairs.others.len() > most {
        return None;
    }
    Some(pairs.one_by_one()).filter(|lines| lines.len() <= most)
}

/// The pairs and their rules in few lines, for a page: what a row comes before,
/// by which rule.
pub fn short_lines(checked: Checked) -> Vec<String> {
    let pairs = Pairs::of(checked);
    let mut rows: BTreeMap<(u8, usize), Vec<usize>> = BTreeMap::new();
    let mut put = |rule: u8, before: usize, after: usize| {
        rows.entry((rule, before)).or_default().push(after);
    };
    pairs.atomics.iter().for_each(|(x, y)| put(0, *x, *y));
    pairs.own.iter().for_each(|(x, y)| put(1, *x, *y));
    for (before, after, rule) in &pairs.others {
        put(*rule, *before, *after);
    }
    let lines = rows.into_iter().map(|((rule, before), after)| {
        let after = all_rows(&after);
        match rule {
            0 => format!("Row {before} and {after}: mutually-ordered atomics (M3)."),
            _ => format!("Row {before} before {after} by L{rule}."),
        }
    });
    lines.collect()
}

fn all_rows(rows: &[usize]) -> String {
    match rows {
        [row] => format!("row {row}"),
        _ => format!("rows {}", names::listed(&ranges(rows, " to "))),
    }
}

/// The conflicting pairs of a race-free table, those that need no more than a
/// mention apart from the others.
struct Pairs<'a> {
    checked: Checked<'a>,
    atomics: Vec<(usize, usize)>,
    own: Vec<(usize, usize)>,
    /// Which row comes first, and the lowest rule at the lowest shared byte.
    others: Vec<(usize, usize, u8)>,
}

impl Pairs<'_> {
    fn of(checked: Checked) -> Pairs {
        let (atomics, others): (Vec<_>, Vec<_>) = conflicting_pairs(checked)
            .into_iter()
            .partition(|(x, y)| checked.state.mutually_ordered(*x, *y));
        let (own, others): (Vec<_>, Vec<_>) = others
            .into_iter()
            .partition(|pair| is_own_order(checked, *pair));
        let others = others.into_iter().flat_map(|(x, y)| rules(checked, x, y));
        Pairs {
            checked,
            atomics,
            own,
            others: others.collect(),
        }
    }

    fn summary(&self) -> Vec<String> {
        let mut by_rule: BTreeMap<u8, usize> = BTreeMap::new();
        let mut pairs: Vec<(usize, usize)> = Vec::new();
        for (x, y, rule) in &self.others {
            let pair = ((*x).min(*y), (*x).max(*y));
            // Bytes of one pair may go by several rules; the first counts.
            if pairs.last() != Some(&pair) {
                pairs.push(pair);
                *by_rule.entry(*rule).or_default() += 1;
            }
        }
        let count = self.atomics.len() + self.own.len() + pairs.len();
        if count == 0 {
            return vec!["No two rows conflict: none share a byte that one of them writes.".into()];
        }
        let first = match count {
            1 => "One pair of rows conflicts, and it is ordered:".to_string(),
            count => format!("{count} pairs of rows conflict, and each is ordered:"),
        };
        let sorts = [
            (self.atomics.len(), "mutually-ordered atomics (M3)"),
            (
                self.own.len(),
                "in program order, one agent and one reference (L1)",
            ),
        ];
        let sorts = sorts.into_iter().filter(|(count, _)| *count > 0);
        let sorts = sorts.map(|(count, words)| format!("  {count} {words}"));
        let rules = by_rule.iter().map(|(rule, count)| {
            let words = RULES[usize::from(*rule) - 1];
            format!("  {count} by L{rule}: {words}")
        });
        std::iter::once(first).chain(sorts).chain(rules).collect()
    }

    fn together(&self) -> Vec<String> {
        let own = "In program order, one agent and one reference (L1)";
        let atomics = together("Mutually-ordered atomics (M3)", &self.atomics);
        atomics
            .into_iter()
            .chain(together(own, &self.own))
            .collect()
    }

    fn one_by_one(&self) -> Vec<String> {
        let mut lines = self.together();
        let mut told: HashMap<Vec<usize>, String> = HashMap::new();
        let mut last = None;
        for (x, y, _) in &self.others {
            let pair = ((*x).min(*y), (*x).max(*y));
            if last == Some(pair) {
                continue;
            }
            last = Some(pair);
            for stretch in stretches(self.checked, pair.0, pair.1) {
                lines.extend(stretch_lines(self.checked, &stretch, &mut told));
            }
        }
        lines
    }
}

/// What each rule of order asks, in short.
const RULES: [&str; 5] = [
    "one agent's own order",
    "a read that happens before the other access",
    "a write that is made available, and visible to what reads it",
    "a read from which dependencies lead to the other access",
    "a write that operations of queues carry to the other access",
];

/// The rules by which a pair is ordered, at one byte after the other.
fn rules(checked: Checked, x: usize, y: usize) -> Vec<(usize, usize, u8)> {
    let mut found: Vec<(usize, usize, u8)> = Vec::new();
    for byte in checked.shared_bytes(x, y) {
        let way = [(x, y), (y, x)].into_iter().find_map(|(before, after)| {
            let rule = checked.rule(before, after, byte)?;
            Some((before, after, rule))
        });
        let Some((before, after, rule)) = way else {
            continue;
        };
        let is_known = |(known, _, other): &(usize, usize, u8)| (*known, *other) == (before, rule);
        if !found.iter().any(is_known) {
            found.push((before, after, rule));
        }
    }
    found
}

fn conflicting_pairs(checked: Checked) -> Vec<(usize, usize)> {
    let rows = checked.run.rows.len();
    (0..rows)
        .flat_map(|x| (x + 1..rows).map(move |y| (x, y)))
        .filter(|(x, y)| checked.state.conflicting(*x, *y))
        .collect()
}

/// Whether a pair is one agent's by one reference, so that its rows' order
/// is all there is to say.
fn is_own_order(checked: Checked, (x, y): (usize, usize)) -> bool {
    let (x, y) = (checked.run.rows[x], checked.run.rows[y]);
    x.agent == y.agent && x.reference == y.reference
}

fn together(title: &str, pairs: &[(usize, usize)]) -> Option<String> {
    if pairs.is_empty() {
        return None;
    }
    let names: Vec<String> = pairs.iter().map(|(x, y)| format!("{x} and {y}")).collect();
    Some(format!("{title}: rows {}.", names.join(", ")))
}

/// A pair's shared bytes, neighbours put together where they are ordered alike.
fn stretches(checked: Checked, x: usize, y: usize) -> Vec<Stretch> {
    let mut stretches: Vec<Stretch> = Vec::new();
    for byte in checked.shared_bytes(x, y) {
        let forth = checked.ordered(x, y, byte).map(|ordered| (x, y, ordered));
        let back = || checked.ordered(y, x, byte).map(|ordered| (y, x, ordered));
        let Some((before, after, ordered)) = forth.or_else(back) else {
            continue;
        };
        match stretches.last_mut() {
            Some(last) if last.before == before && last.ordered == ordered => last.last_byte = byte,
            _ => stretches.push(Stretch {
                first_byte: byte,
                last_byte: byte,
                before,
                after,
                ordered,
            }),
        }
    }
    stretches
}

/// The rule, then the steps, unless they have been told for another pair.
fn stretch_lines(
    checked: Checked,
    stretch: &Stretch,
    told: &mut HashMap<Vec<usize>, String>,
) -> Vec<String> {
    let (before, after) = (stretch.before, stretch.after);
    let (rule, because) = (stretch.ordered.rule, &stretch.ordered.because);
    let bytes = if stretch.first_byte == stretch.last_byte {
        format!("byte {}", stretch.first_byte)
    } else {
        format!("bytes {} to {}", stretch.first_byte, stretch.last_byte)
    };
    let mut lines = vec![format!(
        "Row {before} before row {after} at {bytes} by L{rule}: {because}."
    )];
    if let Some(pair) = told.get(&stretch.ordered.path) {
        lines.push(format!("  the steps are those of {pair}"));
    } else {
        let steps = checked.steps(&stretch.ordered.path);
        lines.extend(steps.iter().map(|step| format!("  {step}")));
        let pair = format!("rows {before} and {after}");
        told.insert(stretch.ordered.path.clone(), pair);
    }
    lines
}
