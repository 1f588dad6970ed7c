//! The tables of docs/RECORDING.md are answered as the page says.

mod common;

use common::stramashly;

const PAGE: &str = include_str!("../../../docs/RECORDING.md");

/// The indented blocks that are texts of tables, each with the answer that follows it.
fn tables() -> Vec<(String, String)> {
    let mut tables = Vec::new();
    let mut lines = PAGE.lines();
    while let Some(line) = lines.next() {
        if !line.starts_with("    stramashly 3") {
            continue;
        }
        let mut text = format!("{}\n", line.trim_start());
        for line in lines.by_ref().take_while(|line| line.starts_with("    ")) {
            text += &format!("{}\n", line.trim_start());
        }
        let answer = lines.find(|line| line.starts_with("Answer: "));
        let answer = answer.and_then(|line| line.split('`').nth(1));
        tables.push((text, answer.expect("an answer").to_string()));
    }
    tables
}

#[test]
fn tables_are_answered_as_the_page_says() {
    let tables = tables();
    assert_eq!(tables.len(), 3);
    for (text, answer) in tables {
        let answered = stramashly(&["check", "-"], text.as_bytes());
        assert_eq!(answered.output, format!("{answer}\n"), "{text}");
    }
}
