//! L3 by chains of several elements, where the device has them.

use crate::account::Ordered;
use crate::derivation::at;
use crate::names;
use crate::told::Checked;
use second::table::{DEVICE, SUBGROUP};

impl Checked<'_> {
    /// The availability and visibility elements by which X is ordered before
    /// Y at a byte.
    pub fn ordered_by_chains(&self, x: usize, y: usize, byte: u32) -> Option<Ordered> {
        let state = self.state;
        let moments = || 0..3 * self.run.rows.len();
        for first in moments().filter(|first| state.begins_availability(*first, x, byte)) {
            for last in moments().filter(|last| state.availability_chain(first, *last)) {
                let Some(visible) = self.visible_after(last, (x, y), byte) else {
                    continue;
                };
                let goes_on = |one, next| state.availability_goes_on(one, next);
                let available = self.elements(first, last, goes_on);
                return Some(self.chained(x, y, available, visible));
            }
        }
        None
    }

    /// The visibility elements that an availability element leads to; none
    /// are needed before a row that doesn't read.
    fn visible_after(&self, last: usize, (x, y): (usize, usize), byte: u32) -> Option<Vec<usize>> {
        let state = self.state;
        if !self.run.rows[y].reads() {
            let is_met = state.happens_before(last, at(y)) && self.have_domain((x, y), &[last]);
            return is_met.then(Vec::new);
        }
        let moments = || 0..3 * self.run.rows.len();
        let ends = moments().filter(|end| state.ends_visibility(*end, y, byte));
        let mut pairs = ends.flat_map(|end| moments().map(move |begin| (begin, end)));
        let (begin, end) = pairs.find(|(begin, end)| {
            state.visibility_chain(*begin, *end)
                && state.happens_before(last, *begin)
                && self.have_domain((x, y), &[last, *begin])
        })?;
        Some(self.elements(begin, end, |one, next| state.visibility_goes_on(one, next)))
    }

    /// Whether the agents of X, Y and some elements share a scope that is no
    /// broader than the elements'.
    fn have_domain(&self, (x, y): (usize, usize), elements: &[usize]) -> bool {
        let rows = &self.run.rows;
        let shares = |row: usize, scope| {
            let state = self.state;
            state.share_scope(rows[x].agent, rows[row].agent, scope)
        };
        (SUBGROUP..=DEVICE).any(|scope| {
            let mut elements = elements.iter().map(|element| element / 3);
            shares(y, scope) && elements.all(|row| scope <= rows[row].scope && shares(row, scope))
        })
    }

    /// A shortest way from one element to another.
    fn elements(
        &self,
        first: usize,
        last: usize,
        goes_on: impl Fn(usize, usize) -> bool,
    ) -> Vec<usize> {
        let mut ways = vec![vec![first]];
        // Scopes broaden from element to element, so that there are few.
        while !ways.is_empty() {
            if let Some(way) = ways.iter().find(|way| way.last() == Some(&last)) {
                return way.clone();
            }
            let longer = ways.iter().flat_map(|way| {
                let end = *way.last().unwrap_or(&first);
                let nexts = (0..3 * self.run.rows.len()).filter(move |next| *next != end);
                let nexts = nexts.filter(|next| goes_on(way[way.len() - 1], *next));
                nexts.map(|next| [&way[..], &[next]].concat())
            });
            ways = longer.collect();
        }
        vec![first, last]
    }

    fn chained(&self, x: usize, y: usize, available: Vec<usize>, visible: Vec<usize>) -> Ordered {
        let scope = |moment: &usize| names::scope(self.run.rows[moment / 3].scope);
        let element = |moment: &usize| format!("row {} in {} scope", moment / 3, scope(moment));
        let listed = |elements: &[usize]| {
            let words: Vec<String> = elements.iter().map(element).collect();
            names::listed(&words)
        };
        let mut because = format!("row {x} is made available by {}", listed(&available));
        if !visible.is_empty() {
            because += &format!(", and visible to row {y} by {}", listed(&visible));
        }
        let ends_at_row = visible.is_empty().then(|| at(y));
        Ordered {
            rule: 3,
            because,
            path: available
                .into_iter()
                .chain(visible)
                .chain(ends_at_row)
                .collect(),
        }
    }
}
