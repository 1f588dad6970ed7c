//! Colours and lines, light and dark.

/// Sorts of arrows, each with a head of its own colour.
const SORTS: [&str; 5] = ["reads", "synchronizes", "modification", "depends", "shown"];

pub const SHEET: &str = "\
.run text { font-family: system-ui, 'Segoe UI', 'DejaVu Sans', sans-serif; font-size: 12px; fill: #1b1f24; }
.run .ground { fill: #ffffff; }
.run .verdict { font-size: 20px; font-weight: bold; }
.run .answer { font-size: 13px; fill: #57606a; }
.run .agent { font-size: 14px; font-weight: bold; text-anchor: middle; paint-order: stroke; stroke: #ffffff; stroke-width: 6px; }
.run .places { font-size: 11px; fill: #57606a; text-anchor: middle; }
.run .lane { stroke: #c3c9d1; stroke-width: 2; stroke-dasharray: 2 5; fill: none; }
.run .number { fill: #57606a; text-anchor: end; }
.run .box { fill: #f2f3f5; stroke: #8a929c; stroke-width: 1; }
.run .atomic .box { fill: #e3eefc; }
.run .barrier .box { fill: #fbf0d4; }
.run .operation .box { fill: #d9f0ee; }
.run .band { fill: none; stroke: #f0d080; stroke-width: 14; stroke-linejoin: round; }
.run .first { font-weight: bold; }
.run .moment { font-size: 11px; text-anchor: middle; }
.run rect.moment { stroke: #8a929c; }
.run rect.available { fill: #d9f2dd; }
.run rect.visible { fill: #ece2fb; }
.run .arrow { fill: none; stroke-width: 1.6; }
.run .reads { stroke: #1f5fd0; }
.run .synchronizes { stroke: #14742f; stroke-width: 3; }
.run .modification { stroke: #8536c9; stroke-dasharray: 7 4; }
.run .depends { stroke: #0b6b78; stroke-width: 2.4; stroke-dasharray: 9 3 2 3; }
.run .race { stroke: #cc1f1a; stroke-width: 4; stroke-dasharray: 3 4; }
.run .too { stroke-width: 1.6; }
.run .shown { stroke: #cc1f1a; stroke-width: 3; }
.run .pointed .box { stroke: #cc1f1a; stroke-width: 3; }
.run rect.ghost { fill: none; stroke: #cc1f1a; stroke-width: 2; stroke-dasharray: 5 3; }
.run text.lacks { fill: #cc1f1a; font-weight: bold; }
.run rect.label { fill: #cc1f1a; }
.run text.label { fill: #ffffff; font-weight: bold; text-anchor: middle; }
.run .head-reads { fill: #1f5fd0; }
.run .head-synchronizes { fill: #14742f; }
.run .head-modification { fill: #8536c9; }
.run .head-depends { fill: #0b6b78; }
.run .head-shown { fill: #cc1f1a; }
@media (prefers-color-scheme: dark) {
.run text { fill: #e6e9ed; }
.run .ground { fill: #12151a; }
.run .agent { stroke: #12151a; }
.run .places, .run .number, .run .answer { fill: #a3acb8; }
.run .lane { stroke: #454c56; }
.run .box { fill: #23272e; stroke: #79828e; }
.run .atomic .box { fill: #1b2d47; }
.run .barrier .box { fill: #3d3214; }
.run .operation .box { fill: #123c3a; }
.run .band { stroke: #6b5518; }
.run rect.moment { stroke: #79828e; }
.run rect.available { fill: #173d21; }
.run rect.visible { fill: #37265a; }
.run .reads { stroke: #79a8ff; }
.run .synchronizes { stroke: #4fc870; }
.run .modification { stroke: #c594ff; }
.run .depends { stroke: #56c8d6; }
.run .race, .run .shown, .run .pointed .box, .run rect.ghost { stroke: #ff6f66; }
.run text.lacks { fill: #ff6f66; }
.run rect.label { fill: #ff6f66; }
.run text.label { fill: #12151a; }
.run .head-reads { fill: #79a8ff; }
.run .head-synchronizes { fill: #4fc870; }
.run .head-modification { fill: #c594ff; }
.run .head-depends { fill: #56c8d6; }
.run .head-shown { fill: #ff6f66; }
}
";

/// Rules by which pointing at a row, or choosing it, lights its box and its
/// arrows in a part of the page: by what is of the row there.
pub fn lights(part: &str, rows: &[usize]) -> String {
    let rule = |row: &usize| {
        let chosen = format!("{part}:has(.of-{row}:hover, #box-{row}:target)");
        format!("{chosen} .of-{row} .box {{ stroke: #d97706; stroke-width: 3; }}\n{chosen} .arrow[class*=of-]:not(.of-{row}) {{ opacity: 0.2; }}\n")
    };
    rows.iter().map(rule).collect()
}

/// The arrows' heads.
pub fn markers() -> String {
    let mut svg = "<defs>\n".to_string();
    for sort in SORTS {
        svg += &format!(
            "<marker id=\"end-{sort}\" markerUnits=\"userSpaceOnUse\" markerWidth=\"11\" markerHeight=\"10\" refX=\"10\" refY=\"5\" orient=\"auto\"><path class=\"head-{sort}\" d=\"M0 0 L11 5 L0 10 Z\"/></marker>\n"
        );
    }
    svg + "</defs>\n"
}
