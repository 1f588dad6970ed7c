//! What agents and rows of a run are called, and a row in a few words.

use crate::names;
use crate::naming;
use mend::Run;
use second::table::{Row, HOST, QUEUE};

/// The words for what a run holds.
pub trait Describe {
    /// The row's kind, its number if the version has no such kind.
    fn kind_name(&self, row: Row) -> String;
    /// `agent 1`, `host agent 0`, `queue agent 2`.
    fn agent_name(&self, agent: u8) -> String;
    /// What a rank is called.
    fn rank_word(&self) -> &'static str;
    /// `row 2, agent 0's atomic write`.
    fn named(&self, row: usize) -> String;
    /// A row in a sentence's worth of words.
    fn described(&self, row: usize) -> String;
    /// The same with what is noted.
    fn described_in_full(&self, row: usize) -> String;
}

impl Describe for Run {
    fn kind_name(&self, row: Row) -> String {
        if row.kind > self.last_kind() {
            return format!("{}?", row.kind);
        }
        names::kind(row.kind)
    }

    fn agent_name(&self, agent: u8) -> String {
        match self.sort(agent) {
            HOST => format!("host agent {agent}"),
            QUEUE => format!("queue agent {agent}"),
            _ => format!("agent {agent}"),
        }
    }

    fn rank_word(&self) -> &'static str {
        if self.is_counted {
            "counted rank"
        } else {
            "rank"
        }
    }

    fn named(&self, row: usize) -> String {
        let fields = self.rows[row];
        let kind = names::kind(fields.kind);
        let agent = self.agent_name(fields.agent);
        format!("row {row}, {agent}'s {kind}")
    }

    fn described(&self, row: usize) -> String {
        let mut parts = vec![self.named(row)];
        let fields = self.rows[row];
        if fields.is_access() {
            parts[0] += &access_words(fields);
        }
        if fields.is_control_barrier() {
            parts[0] += &instance_words(fields);
        }
        parts.extend(semantics_words(fields));
        parts.extend(flag_words(fields));
        if fields.reads() {
            parts.push(format!("read {}", source_words(fields)));
        }
        if fields.is_atomic_writer() {
            parts.push(format!("{} {}", self.rank_word(), fields.rank));
        }
        parts.join(", ")
    }

    fn described_in_full(&self, row: usize) -> String {
        naming::named(&self.notes, &self.described(row))
    }
}

fn instance_words(row: Row) -> String {
    let scope = names::scope(row.execution_scope());
    format!(" of instance {} in {scope} execution scope", row.instance())
}

fn access_words(row: Row) -> String {
    format!(
        " of {} by reference {} in {}",
        names::byte_words(row),
        row.reference,
        names::class(row.class)
    )
}

/// What the row read, as the object of `read`.
pub fn source_words(row: Row) -> String {
    match names::source(row).as_str() {
        "initial value" => "the initial value".to_string(),
        words => words.to_string(),
    }
}

fn semantics_words(row: Row) -> Option<String> {
    if row.is_plain() || row.is_queue_operation() {
        return None;
    }
    let scope = names::scope(row.scope);
    let order = names::order(row.order);
    if row.is_control_barrier() && row.order == 0 {
        return Some("for execution only".to_string());
    }
    Some(if row.classes == 0 {
        format!("{order} in {scope} scope")
    } else {
        let classes = names::classes(row.classes);
        format!("{order} for {classes} in {scope} scope")
    })
}

fn flag_words(row: Row) -> Vec<String> {
    let mut words = Vec::new();
    if row.is_plain() {
        let is_private = if row.is_non_private() { "non-" } else { "" };
        words.push(format!("{is_private}private"));
    }
    // An atomic's or barrier's scope has been said.
    let scope = if row.is_plain() {
        format!(" in {} scope", names::scope(row.scope))
    } else {
        String::new()
    };
    if row.makes_available() {
        words.push(format!("makes available{scope}"));
    }
    if row.makes_visible() {
        words.push(format!("makes visible{scope}"));
    }
    words
}
