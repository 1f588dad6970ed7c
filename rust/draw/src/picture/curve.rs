//! Curves between boxes.

use super::layout::{Layout, Place};

/// A cubic curve: start, two controls, end.
#[derive(Clone, Copy, Debug)]
pub struct Curve(pub [(i32, i32); 4]);

impl Curve {
    /// From one box to another, a little lower or higher than their middles
    /// so that arrows of several sorts stand apart.
    pub fn between(from: &Place, to: &Place, shift: i32, gap: i32) -> Curve {
        let (start, end) = (from.middle() + shift, to.middle() + shift);
        if from.x == to.x {
            // Farther out the farther they are apart.
            let reach = (24 + (end - start).abs() / 12).min(gap - 12) + shift;
            let x = from.right();
            return Curve([(x, start), (x + reach, start), (x + reach, end), (x, end)]);
        }
        let (x, end_x) = if from.x < to.x {
            (from.right(), to.x)
        } else {
            (from.x, to.right())
        };
        let bend = (end_x - x) / 2;
        Curve([
            (x, start),
            (x + bend, start),
            (end_x - bend, end),
            (end_x, end),
        ])
    }

    pub fn path(&self) -> String {
        let [start, first, second, end] = self.0;
        format!(
            "M{} {} C{} {} {} {} {} {}",
            start.0, start.1, first.0, first.1, second.0, second.1, end.0, end.1
        )
    }

    /// A point of the curve, at so many hundredths of the way.
    fn point(&self, hundredths: i32) -> (i32, i32) {
        let t = f64::from(hundredths) / 100.0;
        let weights = [
            (1.0 - t).powi(3),
            3.0 * t * (1.0 - t).powi(2),
            3.0 * t * t * (1.0 - t),
            t.powi(3),
        ];
        let sum = |part: fn(&(i32, i32)) -> i32| {
            let points = self.0.iter().map(part).zip(weights);
            points
                .map(|(at, weight)| f64::from(at) * weight)
                .sum::<f64>() as i32
        };
        (sum(|point| point.0), sum(|point| point.1))
    }

    /// Where a label of this width covers no box and no other label, as near
    /// to the middle as can be.
    pub fn label_place(
        &self,
        layout: &Layout,
        taken: &[(i32, i32, i32)],
        width: i32,
    ) -> (i32, i32) {
        let room = (width / 2, 10);
        let is_box = |(x, y)| layout.rows.values().any(|place| place.contains(x, y, room));
        let is_label = |(x, y): (i32, i32)| {
            taken.iter().any(|(other_x, other_y, other_width)| {
                (x - other_x).abs() < (width + other_width) / 2 && (y - other_y).abs() < 20
            })
        };
        let is_inside = |(x, _): (i32, i32)| x + width / 2 < layout.width;
        let is_free = |point| !is_box(point) && !is_label(point) && is_inside(point);
        let points = (0..=50)
            .flat_map(|away| [50 - away, 50 + away])
            .map(|hundredths| self.point(hundredths));
        // On the curve, else to the right of it.
        let beside = points.clone().map(|(x, y)| (x + width / 2 + 6, y));
        let free = points.clone().chain(beside).find(|point| is_free(*point));
        // Rather over a box than over another label.
        free.or_else(|| points.clone().find(|point| !is_label(*point)))
            .unwrap_or(self.point(50))
    }
}
