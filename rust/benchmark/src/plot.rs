//! A picture of the times by rows, both axes logarithmic.

/// Rows, and microseconds a table: the engine by sets, the flags engine, the second
/// implementation.
pub type Point = (usize, [f64; 3]);

const WIDTH: f64 = 560.0;
const HEIGHT: f64 = 360.0;
const LEFT: f64 = 70.0;
const RIGHT: f64 = 90.0;
const TOP: f64 = 20.0;
const BOTTOM: f64 = 45.0;
/// Where the axes begin and end.
const ROWS: (f64, f64) = (8.0, 128.0);
const TIMES: (f64, f64) = (1.0, 100_000.0);

const STYLE: &str = "text { font: 13px sans-serif; fill: #222 } \
    .grid { stroke: #ccc } .ours { stroke: #0b6e4f; fill: none; stroke-width: 2 } \
    .obvious { stroke: #35608f; fill: none; stroke-width: 2 } \
    .second { stroke: #b3541e; fill: none; stroke-width: 2 } \
    @media (prefers-color-scheme: dark) { text { fill: #ddd } .grid { stroke: #555 } }";

/// The whole SVG.
pub fn svg(points: &[Point]) -> String {
    let mut lines = vec![
        format!("<svg xmlns=\"http://www.w3.org/2000/svg\" viewBox=\"0 0 {WIDTH} {HEIGHT}\" role=\"img\">"),
        "<title>Microseconds a table by rows: both engines and the second implementation</title>".to_string(),
        format!("<style>{STYLE}</style>"),
    ];
    lines.extend(times_axis());
    lines.extend(points.iter().flat_map(|point| row_mark(point.0)));
    lines.push(text(
        LEFT + (WIDTH - LEFT - RIGHT) / 2.0,
        HEIGHT - 8.0,
        "middle",
        "rows",
    ));
    lines.push(text(8.0, TOP - 8.0, "start", "µs"));
    for (name, place) in [("ours", 0), ("obvious", 1), ("second", 2)] {
        lines.extend(curve(name, points, |point| point.1[place]));
    }
    lines.push("</svg>\n".to_string());
    lines.join("\n")
}

/// How far along an axis a number lies, from 0 to 1.
fn share(number: f64, (least, most): (f64, f64)) -> f64 {
    (number / least).ln() / (most / least).ln()
}

fn x(rows: usize) -> f64 {
    LEFT + share(rows as f64, ROWS) * (WIDTH - LEFT - RIGHT)
}

fn y(time: f64) -> f64 {
    HEIGHT - BOTTOM - share(time, TIMES) * (HEIGHT - TOP - BOTTOM)
}

fn text(x: f64, y: f64, anchor: &str, words: &str) -> String {
    format!("<text x=\"{x:.1}\" y=\"{y:.1}\" text-anchor=\"{anchor}\">{words}</text>")
}

/// A line across for each power of ten.
fn times_axis() -> Vec<String> {
    let mark = |power: i32| {
        let time = 10f64.powi(power);
        let (at, right) = (y(time), WIDTH - RIGHT);
        let across = format!("<path class=\"grid\" d=\"M {LEFT} {at:.1} H {right}\"/>");
        [across, text(LEFT - 8.0, at + 4.0, "end", &time.to_string())]
    };
    (0..=5).flat_map(mark).collect()
}

fn row_mark(rows: usize) -> Vec<String> {
    let (at, bottom) = (x(rows), HEIGHT - BOTTOM);
    let down = format!("<path class=\"grid\" d=\"M {at:.1} {TOP} V {bottom}\"/>");
    vec![down, text(at, bottom + 18.0, "middle", &rows.to_string())]
}

fn curve(name: &str, points: &[Point], time: impl Fn(&Point) -> f64) -> Vec<String> {
    let places: Vec<String> = points
        .iter()
        .map(|point| format!("{:.1},{:.1}", x(point.0), y(time(point))))
        .collect();
    let line = format!(
        "<polyline class=\"{name}\" points=\"{}\"/>",
        places.join(" ")
    );
    let end = points
        .last()
        .map(|last| (x(last.0) + 8.0, y(time(last)) + 4.0));
    let label = end.map(|(x, y)| text(x, y, "start", name));
    std::iter::once(line).chain(label).collect()
}
