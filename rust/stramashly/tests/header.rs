//! The header and this crate say the same: version, limits, codes, refusals.

use std::collections::BTreeMap;
use stramashly::*;

const HEADER: &str = include_str!("../../../include/stramashly.h");

/// The header's macros and enumerators that are numbers or strings.
fn header() -> BTreeMap<&'static str, &'static str> {
    let macros = HEADER.lines().filter_map(|line| {
        let mut words = line.strip_prefix("#define ")?.split(' ');
        Some((words.next()?, words.next()?))
    });
    let codes = HEADER.lines().filter_map(|line| {
        let (name, value) = line.trim().split_once(" = ")?;
        let end = value.find(|letter: char| !letter.is_ascii_digit());
        Some((name, &value[..end.unwrap_or(value.len())]))
    });
    let all = macros.chain(codes);
    all.filter_map(|(name, value)| Some((name.strip_prefix("STRAMASHLY_")?, value)))
        .collect()
}

#[test]
fn the_version_is_this_crates() {
    let header = header();
    let version = env!("CARGO_PKG_VERSION");
    assert_eq!(header["VERSION"], format!("\"{version}\""));
    let parts = ["MAJOR", "MINOR", "PATCH"].map(|part| header[&*format!("VERSION_{part}")]);
    assert_eq!(parts.join("."), version);
}

#[test]
fn limits_and_buffers_are_these() {
    let header = header();
    for (name, value) in [
        ("WORK_WORDS", WORK_WORDS),
        ("CYCLE_NUMBERS", CYCLE_NUMBERS),
        ("CYCLE_EDGES", CYCLE_EDGES),
        ("SOURCE_NUMBERS", SOURCE_NUMBERS),
        ("CHAIN_NUMBERS", CHAIN_NUMBERS),
        ("READ_PLACES", READ_PLACES),
        ("READ_ROWS", READ_ROWS),
        ("READ_DEPENDENCIES", READ_DEPENDENCIES),
        ("AGENTS", MAX_AGENTS),
        ("ROWS", MAX_ROWS),
        ("DEPENDENCIES", MAX_DEPENDENCIES),
        ("TABLE_BYTES", MAX_TABLE_BYTES),
        ("ROW_BYTES", ROW_BYTES),
        ("INITIAL", INITIAL.into()),
        ("BLANK", BLANK.into()),
        ("PROGRAM_ORDER", PROGRAM_ORDER.into()),
        ("STEP_CASE", STEP_CASE.into()),
    ] {
        assert_eq!(header[name], value.to_string(), "{name}");
    }
}

#[test]
fn codes_are_these() {
    let header = header();
    for (name, code) in [
        ("RACE_FREE", Code::RaceFree),
        ("RACE", Code::Race),
        ("OVERWRITTEN", Code::Overwritten),
        ("CYCLE", Code::Cycle),
        ("REFUSED", Code::Refused),
        ("NONE", Code::None),
        ("FILLED", Code::Filled),
        ("REPORT", Code::Report),
        ("DERIVATION", Code::Derivation),
        ("NOT_BEFORE", Code::NotBefore),
        ("ACCEPTED", Code::Accepted),
        ("NOT_ACCEPTED", Code::NotAccepted),
        ("WRITTEN", Code::Written),
        ("OPENED", Code::Opened),
        ("ROW", Code::Row),
        ("END", Code::End),
        ("ROW_PLACE", Code::RowPlace),
        ("NO_ROW", Code::NoRow),
        ("NO_PAIRS", Code::NoPairs),
        ("READ", Code::Read),
    ] {
        assert_eq!(header[name], (code as u16).to_string(), "{name}");
        assert_eq!(Packed::new(code, 1, 2, 3).code(), Some(code));
    }
    let refusals = header
        .iter()
        .filter(|(name, _)| name.starts_with("REFUSAL_"));
    let mut refusals: Vec<u16> = refusals.map(|(_, value)| value.parse().unwrap()).collect();
    refusals.sort_unstable();
    assert!(refusals.into_iter().eq((1..=20).chain([40])));
}
