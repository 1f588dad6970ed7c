//! What earlier runs had: a baseline of known findings, and an earlier summary to
//! compare with.

use super::Overview;
use crate::found::Fingerprint;
use std::collections::{BTreeMap, BTreeSet};
use std::ffi::OsStr;
use std::fs;
use text::json::{parse, Node, Value};

/// What is known of earlier runs.
#[derive(Debug, Default)]
pub struct Earlier {
    /// Findings that don't count.
    known: Option<BTreeSet<Fingerprint>>,
    pub against: Option<Summed>,
}

/// An earlier summary.
#[derive(Debug, Default, PartialEq)]
pub struct Summed {
    pub runs: u64,
    pub conflicting: u64,
    pub racing: u64,
    /// What each finding was, and in how many runs.
    pub findings: BTreeMap<Fingerprint, (String, u64)>,
}

impl Earlier {
    pub fn read(overview: &Overview) -> Result<Earlier, String> {
        let baseline = overview.baseline.as_deref().map(baseline).transpose()?;
        let against = overview.against.as_deref().map(summed).transpose()?;
        Ok(Earlier {
            known: baseline,
            against,
        })
    }

    pub fn has_baseline(&self) -> bool {
        self.known.is_some()
    }

    pub fn is_known(&self, print: Fingerprint) -> bool {
        let known = self.known.as_ref();
        known.is_some_and(|known| known.contains(&print))
    }
}

fn text(name: &OsStr) -> Result<String, String> {
    let text = fs::read_to_string(name);
    text.map_err(|error| format!("{}: {error}", name.to_string_lossy()))
}

/// Known findings: an earlier summary as JSON, or lines that begin with a
/// fingerprint; those that begin with # and blank ones are nothing.
fn baseline(name: &OsStr) -> Result<BTreeSet<Fingerprint>, String> {
    let text = text(name)?;
    if text.trim_start().starts_with('{') {
        return Ok(summed(name)?.findings.into_keys().collect());
    }
    let mut known = BTreeSet::new();
    for (number, line) in text.lines().enumerate() {
        let Some(word) = line.split_whitespace().next() else {
            continue;
        };
        if word.starts_with('#') {
            continue;
        }
        let print = Fingerprint::parse(word).ok_or_else(|| {
            let place = format!("{}:{}:1", name.to_string_lossy(), number + 1);
            format!("{place}: expected a fingerprint of 16 hex digits, not {word:?}")
        })?;
        known.insert(print);
    }
    Ok(known)
}

/// A summary that was written as JSON.
fn summed(name: &OsStr) -> Result<Summed, String> {
    let bad = |reason: &str| format!("{}: {reason}", name.to_string_lossy());
    let text = text(name)?;
    let node = parse(1, text.trim_end()).map_err(|trouble| bad(&trouble.reason))?;
    let count = |key: &str| count(&node, key);
    let no_summary = || bad("no summary that `summary --json` wrote");
    let findings = member(&node, "findings").ok_or_else(no_summary)?;
    let Value::List(findings) = &findings.value else {
        return Err(no_summary());
    };
    let findings = findings.iter().map(|node| {
        let word = |key| match &member(node, key)?.value {
            Value::Text(text) => Some(text.clone()),
            _ => None,
        };
        let print = Fingerprint::parse(&word("fingerprint")?)?;
        Some((print, (word("what")?, self::count(node, "runs")?)))
    });
    Ok(Summed {
        runs: count("runs").ok_or_else(no_summary)?,
        conflicting: count("conflicting").ok_or_else(no_summary)?,
        racing: count("racing").ok_or_else(no_summary)?,
        findings: findings.collect::<Option<_>>().ok_or_else(no_summary)?,
    })
}

fn member<'a>(node: &'a Node, key: &str) -> Option<&'a Node> {
    let Value::Object(members) = &node.value else {
        return None;
    };
    let member = members.iter().find(|member| member.key == key);
    member.map(|member| &member.node)
}

fn count(node: &Node, key: &str) -> Option<u64> {
    match &member(node, key)?.value {
        Value::Number(digits) => digits.parse().ok(),
        _ => None,
    }
}
