//! Pictures and pages: well-formed, complete, and nothing on top of anything.

#[path = "../../words/tests/common/mod.rs"]
mod common;
#[path = "../../words/tests/scenarios/mod.rs"]
mod scenarios;

use common::{elements, example, generated, with_relations, Element, Second};
use draw::{draw, draw_noted, page};
use mend::Notes;
use stramashly::Checker;
use tables::{hosted, Build, Random, Row, Size, Table};
use words::{explain, explain_noted, headline, Checked};

/// The whole picture.
fn drawn(table: &[u8]) -> Option<Vec<Element>> {
    let svg = draw(table, &mut Checker::new(), true).ok()?;
    Some(elements(&svg))
}

fn with_class<'a>(elements: &'a [Element], name: &str, class: &str) -> Vec<&'a Element> {
    let found = elements
        .iter()
        .filter(|element| element.name == name && element.has_class(class));
    found.collect()
}

/// Left, top, right and bottom.
fn sides(rect: &Element) -> [i32; 4] {
    let [x, y, width, height] =
        ["x", "y", "width", "height"].map(|name| rect.number(name).unwrap());
    [x, y, x + width, y + height]
}

fn overlap(first: [i32; 4], second: [i32; 4]) -> bool {
    (0..2).all(|side| first[side] < second[side + 2] && second[side] < first[side + 2])
}

/// How many arrows of each sort the relations ask for.
fn relations(checked: Checked) -> [usize; 3] {
    let state = checked.state;
    let rows = checked.run.rows.len();
    let mut counts = [0; 3];
    for (x, y) in (0..rows).flat_map(|x| (0..rows).map(move |y| (x, y))) {
        counts[0] += usize::from(state.read_from(y) == Some(x));
        // The band of an instance says it of its rows.
        let is_met = state.control_barrier(x, y) == Some((x, y));
        counts[1] += usize::from(state.synchronizes_with(x, y) && !is_met);
        let is_between = |row| state.modification_order(x, row) && state.modification_order(row, y);
        let is_next = state.modification_order(x, y) && !(0..rows).any(is_between);
        counts[2] += usize::from(is_next);
    }
    counts
}

fn has_kind(checked: Checked, kind: &str) -> bool {
    checked.run.rows.iter().any(|row| match kind {
        "plain" => row.is_plain(),
        "atomic" => row.is_atomic(),
        _ => row.is_barrier(),
    })
}

/// Every racing pair has its line, the one that the answer names a label too.
#[test]
fn every_race_is_marked() {
    let mut races = 0;
    for table in generated(344, 400, 2, 10) {
        let elements = drawn(&table).unwrap();
        let expected = with_relations(&table, |checked| {
            let rows = checked.run.rows.len();
            let pairs = (0..rows).flat_map(|x| (x + 1..rows).map(move |y| (x, y)));
            let is_race = |(x, y): &(usize, usize)| {
                let mut bytes = checked.shared_bytes(*x, *y).into_iter();
                bytes.any(|byte| checked.state.races_at(*x, *y, byte))
            };
            pairs.filter(is_race).count()
        });
        let answer = Checker::new().check(&table).to_string();
        if answer.starts_with("race ") {
            // The legend has the named one and, if there are others, those.
            let in_legend = 1 + usize::from(expected > 1);
            let drawn = with_class(&elements, "path", "race").len();
            assert_eq!(drawn, expected + in_legend);
            races += expected;
        }
    }
    assert!(races > 80, "{races} races");
}

/// The rows that an answer names.
fn named_rows(answer: &str) -> Vec<usize> {
    let words: Vec<&str> = answer.split(' ').collect();
    let named = match words[..] {
        ["race" | "overwritten", first, second, _] => vec![first, second],
        ["cycle", length, "rows", ref rest @ ..] => rest[..length.parse().unwrap()].to_vec(),
        _ => Vec::new(),
    };
    named.iter().map(|row| row.parse().unwrap()).collect()
}

/// Of a large run the rows that the answer names are drawn, and not all; all
/// are, if they are wanted.
#[test]
fn a_large_run_shows_what_matters() {
    let mut checker = Checker::new();
    let mut reduced = 0;
    let tables = generated(345, 24, 40, 64).into_iter();
    for table in tables.chain(generated(346, 4, 128, 128)) {
        let answer = checker.check(&table).to_string();
        let svg = draw(&table, &mut checker, false).unwrap();
        let ids: Vec<String> = elements(&svg)
            .iter()
            .filter_map(|tag| tag.get("id"))
            .filter(|id| id.starts_with("box-"))
            .map(str::to_string)
            .collect();
        for row in named_rows(&answer) {
            assert!(ids.contains(&format!("box-{row}")), "{row} {ids:?}");
        }
        let rows = usize::from(table[6]);
        if ids.len() < rows {
            let note = format!("{} of {rows} rows are drawn", ids.len());
            assert!(svg.contains(&note), "{note}");
            assert_ne!(answer, "race-free");
            reduced += 1;
        }
        let all = draw(&table, &mut checker, true).unwrap();
        assert_eq!(all.matches("id=\"box-").count(), rows);
    }
    assert!(reduced > 10, "{reduced}");
}

/// Many agents have narrow columns.
#[test]
fn many_agents_have_narrow_columns() {
    let rows: Vec<Row> = (0..32).map(Row::write).collect();
    let width = |agents: u16| {
        let rows = &rows[..usize::from(agents)];
        let table = Table::of_one_workgroup(agents, rows).bytes();
        let elements = drawn(&table).unwrap();
        elements[0].number("width").unwrap()
    };
    assert!(width(32) < 32 * 240, "{}", width(32));
    assert!(width(6) < width(5) + 100);
}

#[test]
fn every_row_and_every_arrow_is_there() {
    for table in generated(341, 300, 2, 16) {
        let elements = drawn(&table).unwrap();
        let rows = usize::from(table[6]);
        let kinds = ["plain", "atomic", "barrier"]
            .into_iter()
            .filter(|kind| with_relations(&table, |checked| has_kind(checked, kind)));
        assert_eq!(
            with_class(&elements, "rect", "box").len(),
            rows + kinds.count(),
            "the rows, and the legend's, one of each kind"
        );
        let expected = with_relations(&table, relations);
        let sorts = ["reads", "synchronizes", "modification"];
        for (sort, count) in sorts.into_iter().zip(expected) {
            let arrows = with_class(&elements, "path", sort);
            // One more stands in the legend, if there is any.
            assert_eq!(arrows.len(), count + usize::from(count > 0), "{sort}");
        }
    }
}

/// Boxes don't overlap, and everything lies inside the picture, at 128 rows too.
#[test]
fn nothing_lies_on_another_or_outside() {
    let small = generated(342, 200, 2, 16);
    let mut random = Random::new(347);
    let size = Size::of(3, 16);
    let hosts = (0..100).map(|_| hosted(&mut random, size).bytes());
    let large = generated(343, 5, 128, 128);
    for table in small.into_iter().chain(large).chain(hosts) {
        // The linked library may not take hosts.
        let svg = draw(&table, &mut Second::new(), true).unwrap();
        let elements = elements(&svg);
        let size = ["width", "height"].map(|name| elements[0].number(name).unwrap());
        let boxes: Vec<[i32; 4]> = with_class(&elements, "rect", "box")
            .into_iter()
            .chain(with_class(&elements, "rect", "moment"))
            .map(sides)
            .collect();
        for (place, rect) in boxes.iter().enumerate() {
            let [left, top, right, bottom] = *rect;
            assert!(left >= 0 && top >= 0 && right <= size[0] && bottom <= size[1]);
            for other in &boxes[..place] {
                assert!(!overlap(*rect, *other), "{rect:?} {other:?}");
            }
        }
    }
}

#[test]
fn the_answer_is_pointed_out() {
    for (name, pointed, labels) in [
        ("p", 0, 0),
        ("leak", 2, 1),
        ("overwritten", 3, 2),
        ("p-initial", 2, 2),
    ] {
        let elements = drawn(&example(name)).unwrap();
        assert_eq!(
            with_class(&elements, "g", "pointed").len(),
            pointed,
            "{name}"
        );
        assert_eq!(
            with_class(&elements, "text", "label").len(),
            labels,
            "{name}"
        );
    }
}

/// Labels cover no box and no other label.
#[test]
fn labels_stand_free() {
    for name in [
        "leak",
        "half-available",
        "overwritten",
        "p-initial",
        "lost-update",
    ] {
        let elements = drawn(&example(name)).unwrap();
        let labels = with_class(&elements, "rect", "label");
        assert!(!labels.is_empty(), "{name}");
        let others = ["box", "moment", "label"].map(|class| with_class(&elements, "rect", class));
        let rects: Vec<[i32; 4]> = others.into_iter().flatten().map(sides).collect();
        for label in labels {
            let label = sides(label);
            let covered = rects.iter().filter(|rect| overlap(**rect, label));
            // Itself.
            assert_eq!(covered.count(), 1, "{name}");
        }
    }
}

/// Every colour of the light sheet has its dark one.
#[test]
fn the_picture_is_light_and_dark() {
    let svg = draw(&example("leak"), &mut Checker::new(), false).unwrap();
    let (light, dark) = svg
        .split_once("@media (prefers-color-scheme: dark) {")
        .unwrap();
    let (dark, _) = dark.split_once("</style>").unwrap();
    let coloured = |sheet: &str| -> Vec<String> {
        let lines = sheet
            .lines()
            .filter(|line| line.starts_with(".run") && line.contains('#'));
        lines
            .flat_map(|line| line.split_once(" {").unwrap().0.split(", "))
            .map(str::to_string)
            .collect()
    };
    let (light, dark) = (coloured(light), coloured(dark));
    assert!(light.len() > 20);
    for selector in &light {
        assert!(dark.contains(selector), "{selector}");
    }
}

#[test]
fn a_page_has_the_sentences_the_picture_and_the_table() {
    let mut checker = Checker::new();
    for (name, rows, pictures) in [
        ("leak", 6, 1),
        ("p", 4, 1),
        ("too-long", 2, 0),
        ("empty", 0, 1),
    ] {
        let table = example(name);
        let explanation = explain(&table, &mut checker);
        let html = page(&table, &explanation, false);
        let elements = elements(&html);
        let count = |name: &str| elements.iter().filter(|tag| tag.name == name).count();
        assert_eq!(count("svg"), pictures, "{name}");
        assert_eq!(count("td"), 11 * rows, "{name}");
        assert!(count("p") > explanation.lines.len(), "{name}");
        let headline = headline(&explanation.shown);
        assert!(html.contains(&format!("<h1>{headline}</h1>")));
        assert!(html.contains(&format!("<title>{headline}</title>")));
        assert!(html.contains(&format!("<code>{}</code>", explanation.answer)));
        // Nothing is fetched from elsewhere; every link leads to a row.
        assert!(elements.iter().all(|tag| tag.get("src").is_none()));
        let ids: Vec<&str> = elements.iter().filter_map(|tag| tag.get("id")).collect();
        let links: Vec<&str> = elements.iter().filter_map(|tag| tag.get("href")).collect();
        for link in &links {
            assert!(ids.contains(&link.strip_prefix('#').unwrap()), "{link}");
        }
        assert_eq!(links.is_empty(), name == "empty", "{name}");
        // What is wide can be reached by keys.
        let areas = elements.iter().filter(|tag| tag.has_class("wide"));
        assert!(areas
            .into_iter()
            .all(|tag| tag.get("tabindex") == Some("0")));
    }
}

/// The row that a refusal names is set off in the page's table.
#[test]
fn a_refused_row_is_pointed_out() {
    let table = example("too-long");
    let explanation = explain(&table, &mut Checker::new());
    let html = page(&table, &explanation, false);
    let elements = elements(&html);
    let pointed = with_class(&elements, "tr", "pointed");
    let ids: Vec<Option<&str>> = pointed.iter().map(|tag| tag.get("id")).collect();
    assert_eq!(ids, [Some("row-1")]);
}

/// The page of a race-free run of 128 rows is small, its pairs are folded up.
#[test]
fn a_race_free_page_is_small() {
    let run = scenarios::mended_ladder();
    let mut checker = Checker::new();
    let explanation = explain_noted(&run.table, &run.notes, &mut checker, false);
    assert_eq!(explanation.answer.to_string(), "race-free");
    assert!(explanation.lines.len() < 10, "{}", explanation.text());
    let html = page(&run.table, &explanation, false);
    assert!(html.len() < 300_000, "{}", html.len());
    let elements = elements(&html);
    assert_eq!(
        elements.iter().filter(|tag| tag.name == "details").count(),
        1
    );
    let picture = html.find("<svg").unwrap();
    assert!(picture < html.find("pairs of rows conflict").unwrap());
}

/// Of many rows each agent's are packed: at most 40 units of height for a row,
/// and rows of one control barrier side by side.
#[test]
fn many_rows_are_packed() {
    let mut checker = Checker::new();
    let ladder = scenarios::mended_ladder();
    let long: Vec<Row> = (0..120).map(|row| Row::write(0).at(4 * row, 4)).collect();
    let long = Table::of_one_workgroup(1, &long).bytes();
    let all = scenarios::all().into_iter().filter(|run| run.table[6] > 32);
    let all = all.step_by(3).map(|run| (run.table, run.notes));
    let mut sides_by_side = 0;
    for (table, notes) in all.chain([(ladder.table, ladder.notes), (long, Notes::default())]) {
        let svg = draw_noted(&table, &notes, &mut checker, true).unwrap();
        let elements = elements(&svg);
        let boxes: Vec<[i32; 4]> = with_class(&elements, "rect", "box")
            .into_iter()
            .map(sides)
            .collect();
        let tops = boxes.iter().map(|side| side[1]);
        let height = boxes.iter().map(|side| side[3]).max().unwrap() - tops.min().unwrap();
        assert!(height <= 40 * i32::from(table[6]), "{height}");
        let run = mend::Run::of(&table);
        for (one, other) in (0..run.rows.len()).flat_map(|x| (0..x).map(move |y| (x, y))) {
            let (first, second) = (run.rows[one], run.rows[other]);
            let is_met = first.is_control_barrier()
                && second.is_control_barrier()
                && first.instance() == second.instance();
            if is_met {
                assert_eq!(boxes[one][1], boxes[other][1], "{one} {other}");
                sides_by_side += 1;
            }
        }
    }
    assert!(sides_by_side > 100, "{sides_by_side}");
}

/// What the first change would add is drawn as missing, and pointing at a row
/// lights what is of it.
#[test]
fn what_is_missing_is_a_ghost() {
    let mut checker = Checker::new();
    let (mut ghosts, mut all) = (0, 0);
    for run in scenarios::all().into_iter().step_by(2) {
        all += 1;
        let svg = draw_noted(&run.table, &run.notes, &mut checker, false).unwrap();
        let elements = elements(&svg);
        let drawn = elements
            .iter()
            .any(|tag| tag.has_class("ghost") || tag.has_class("lacks"));
        ghosts += usize::from(drawn);
        for tag in elements.iter().filter(|tag| tag.has_class("arrow")) {
            let classes = tag.get("class").unwrap();
            // The legend's arrows are of no row.
            assert!(
                matches!(classes.matches(" of-").count(), 0 | 2),
                "{classes}"
            );
        }
        assert!(svg.contains(".run:has(.of-0:hover") || !svg.contains("id=\"box-0\""));
    }
    // Dependencies have none.
    assert!(ghosts >= all - 4, "{ghosts} of {all}");
}
