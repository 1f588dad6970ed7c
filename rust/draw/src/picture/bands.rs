//! A band across the agents that meet in a control barrier's instance.

use super::layout::Layout;
use mend::Run;
use std::collections::BTreeMap;
use words::names;

/// The drawn rows of each instance that more than one agent meets in.
fn instances(run: &Run, layout: &Layout) -> BTreeMap<u16, Vec<usize>> {
    let mut instances: BTreeMap<u16, Vec<usize>> = BTreeMap::new();
    for number in layout.rows.keys() {
        let row = run.rows[*number];
        if row.is_control_barrier() {
            instances.entry(row.instance()).or_default().push(*number);
        }
    }
    instances.retain(|_, rows| rows.len() > 1);
    instances
}

/// The bands, below the boxes: from column to column through the rows.
pub fn drawn(run: &Run, layout: &Layout) -> String {
    let mut svg = String::new();
    for (instance, mut rows) in instances(run, layout) {
        rows.sort_by_key(|row| layout.rows[row].x);
        let points: Vec<String> = rows
            .iter()
            .map(|row| {
                let place = &layout.rows[row];
                format!(
                    "{} {} L{} {}",
                    place.x,
                    place.middle(),
                    place.right(),
                    place.middle()
                )
            })
            .collect();
        let numbers: Vec<String> = rows.iter().map(usize::to_string).collect();
        svg += &format!(
            "<path class=\"band\" d=\"M{}\"><title>rows {} meet in control barrier {instance}</title></path>\n",
            points.join(" L"),
            names::listed(&numbers)
        );
    }
    svg
}
