//! Why a change might be what is missing, said of the table as it is.

use crate::describe::source_words;
use crate::names;
use crate::told::Checked;
use mend::{ranges, Change, Dependency, Goal, Reason};
use second::table::{Row, ACQUIRE, BOTH, MAKE_AVAILABLE, MAKE_VISIBLE, RELEASE, SUBGROUP};

/// So many rows of an instruction are named, or ranges of them.
const NAMED_ROWS: usize = 6;

/// Some rows in words: `row 3`, `rows 8 to 15`, `rows 1, 4 and 12 more`.
pub fn rows_words(rows: &[usize]) -> String {
    if let [row] = rows {
        return format!("row {row}");
    }
    let mut ranges = ranges(rows, " to ");
    if ranges.len() > NAMED_ROWS {
        let more = rows.len() - NAMED_ROWS;
        ranges.truncate(NAMED_ROWS);
        ranges.push(format!("{more} more"));
    }
    format!("rows {}", names::listed(&ranges))
}

/// What a sentence calls an instruction, and where something of it is.
struct Subject {
    name: String,
    at: String,
    row: Row,
}

impl Checked<'_> {
    /// What an instruction is called: the row, or the line or the control
    /// barrier with its rows.
    pub fn instruction_name(&self, rows: &[usize], row: usize) -> String {
        self.subject(rows, row).name
    }

    fn subject(&self, rows: &[usize], row: usize) -> Subject {
        let fields = self.run.rows[row];
        let subject = |preposition: &str, name: String| Subject {
            at: format!("{preposition} {name}"),
            name,
            row: fields,
        };
        if rows.len() < 2 {
            return subject("in", format!("row {row}"));
        }
        let recorded = rows_words(rows);
        let mut places = rows.iter().filter_map(|row| self.run.notes.place(*row));
        let place = places.next();
        let is_one = places.all(|other| Some(other) == place);
        match place.filter(|_| is_one) {
            Some(place) => subject("in", format!("line {place} ({recorded})")),
            None if fields.is_control_barrier() => {
                let instance = fields.instance();
                subject("in", format!("control barrier {instance} ({recorded})"))
            }
            None => subject("in", recorded),
        }
    }

    /// The reasons of a change as sentences about the table as it is, and what
    /// would be otherwise; `new` counts the rows that are put in.
    pub fn change_words(&self, change: &Change, goal: Goal, new: usize) -> Vec<String> {
        let reasons = change.reasons.iter();
        reasons
            .map(|reason| self.reason_words(&change.rows, *reason, goal, new))
            .collect()
    }

    fn reason_words(&self, line: &[usize], reason: Reason, goal: Goal, new: usize) -> String {
        let subject = |row: usize| self.subject(line, row);
        match reason {
            Reason::Private { row } => {
                format!("{} is private; make it non-private", subject(row).name)
            }
            Reason::PlainFlag { row, scope } => self.plain_flag_words(subject(row), scope, goal),
            Reason::NoFlag { row, flag } => self.no_flag_words(subject(row), flag, goal),
            Reason::Narrow {
                row,
                scope,
                is_ranked,
            } => too_narrow_words(subject(row), scope, is_ranked),
            Reason::LacksClass { row, class } => self.class_words(subject(row), class, goal),
            Reason::LacksOrder {
                row,
                order,
                classes,
                is_flagged,
            } => order_words(subject(row), order, classes, is_flagged),
            Reason::Mixed { row } => format!(
                "{} is one instruction, but its rows differ in order, scope, classes or flags; let each have what they have together",
                subject(row).name
            ),
            Reason::NotAtomic { scope, .. } => not_atomic_words(line, scope),
            Reason::EndsSequence { row } => format!(
                "{} is an atomic write, and an acquire that reads it needn't see an earlier release; make it a read-modify-write",
                subject(row).name
            ),
            other => self.other_words(line, other, new),
        }
    }

    /// The words for another access, another run and new rows.
    fn other_words(&self, line: &[usize], reason: Reason, new: usize) -> String {
        let rows = &self.run.rows;
        match reason {
            Reason::OtherReference { row, other } => format!(
                "{} goes by reference {}, row {other} by reference {}; let both go by the latter",
                self.subject(line, row).name,
                rows[row].reference,
                rows[other].reference
            ),
            Reason::OtherSource { row, source } => format!(
                "row {row} read {}, not row {source}; let agent {} wait until it reads row {source}",
                source_words(rows[row]),
                rows[row].agent
            ),
            Reason::NoHandshake {
                before,
                after,
                scope,
                classes,
            } => handshake_words(before, after, scope, classes),
            Reason::NoMeeting {
                before,
                after,
                scope,
                classes,
            } => self.meeting_words((before, after), new, scope, classes),
            Reason::NotCarried {
                before,
                after,
                operations,
                joined,
            } => self.carried_words((before, after), &operations, &joined),
            // The others are said of rows that are there.
            _ => String::new(),
        }
    }

    fn meeting_words(
        &self,
        (before, after): (usize, usize),
        new: usize,
        scope: u8,
        classes: u8,
    ) -> String {
        let rows = &self.run.rows;
        let who = match new {
            0..=2 => format!("agents {} and {}", rows[before].agent, rows[after].agent),
            _ => format!("all {new} agents of the {}", names::scope(scope)),
        };
        format!(
            "let {who} meet in a control barrier after row {before} and before row {after} that makes available and visible, for {} in {} scope",
            names::classes(classes),
            names::scope(scope)
        )
    }

    /// What is to be put in so that a row's bytes reach another row.
    fn carried_words(
        &self,
        (before, after): (usize, usize),
        operations: &[Option<u8>],
        joined: &[Option<Dependency>],
    ) -> String {
        let operations: Vec<String> = operations
            .iter()
            .flatten()
            .map(|kind| {
                let kind = names::kind(*kind);
                format!("{} {kind}", names::article(&kind))
            })
            .collect();
        let joined: Vec<String> = joined
            .iter()
            .flatten()
            .map(|join| format!("row {} depend on row {}", join.second, join.first))
            .collect();
        let mut wanted = Vec::new();
        if !operations.is_empty() {
            wanted.push(format!("put in {}", names::listed(&operations)));
        }
        if !joined.is_empty() {
            let counted = match operations.is_empty() {
                true => "",
                false => ", the new rows counted",
            };
            wanted.push(format!("let {}{counted}", names::listed(&joined)));
        }
        let what = match self.run.rows[before].writes() {
            true => format!("what row {before} wrote isn't carried to row {after}"),
            false => format!("no dependencies lead from row {before}, which reads, to row {after}"),
        };
        format!("{what}; {}", wanted.join(", and "))
    }

    /// `agent 0's write in row 0 is never made available to agent 1: ` where
    /// that is so and this agent could have done it.
    fn never_words(&self, agent: u8, is_available: bool, goal: Goal) -> String {
        let rows = &self.run.rows;
        let racing = [(goal.first, goal.second), (goal.second, goal.first)];
        let lost = racing.into_iter().find(|(writer, other)| {
            let doer = if is_available { *writer } else { *other };
            rows[*writer].writes()
                && (is_available || rows[*other].reads())
                && rows[doer].agent == agent
                && self.is_never(is_available, *writer, *other, goal.byte)
        });
        let Some((writer, other)) = lost else {
            return String::new();
        };
        let is_whole = self
            .shared_bytes(writer, other)
            .into_iter()
            .all(|byte| self.is_never(is_available, writer, other, byte));
        let byte = if is_whole {
            String::new()
        } else {
            format!("byte {} of ", goal.byte)
        };
        let (agent, reached) = (rows[writer].agent, rows[other].agent);
        let what = if is_available { "available" } else { "visible" };
        format!(
            "{byte}agent {agent}'s write in row {writer} is never made {what} to agent {reached}: "
        )
    }

    /// Whether no moment makes a byte of a row available, or visible, to
    /// another row's agent.
    fn is_never(&self, is_available: bool, writer: usize, other: usize, byte: u32) -> bool {
        let state = self.state;
        (0..3 * self.run.rows.len()).all(|moment| {
            if is_available {
                !state.makes_available(moment, writer, other, byte)
            } else {
                !state.makes_visible(moment, writer, other, byte)
            }
        })
    }

    fn no_flag_words(&self, subject: Subject, flag: u8, goal: Goal) -> String {
        let is_available = flag & MAKE_AVAILABLE != 0;
        let never = self.never_words(subject.row.agent, is_available, goal);
        let noun = match subject.row.is_control_barrier() {
            true => "control barrier",
            false if is_available => "release",
            false => "acquire",
        };
        let lacks = match flag {
            MAKE_AVAILABLE => "has no make-available flag; set it",
            MAKE_VISIBLE => "has no make-visible flag; set it",
            _ => "has neither a make-available nor a make-visible flag; set both",
        };
        format!("{never}the {noun} {} {lacks}", subject.at)
    }

    fn plain_flag_words(&self, subject: Subject, scope: u8, goal: Goal) -> String {
        let fields = subject.row;
        let never = self.never_words(fields.agent, fields.writes(), goal);
        let (noun, word) = if fields.writes() {
            ("write", "available")
        } else {
            ("read", "visible")
        };
        let private = if fields.is_non_private() {
            String::new()
        } else {
            "is private and ".to_string()
        };
        let (at, scope) = (subject.at, names::scope(scope));
        format!(
            "{never}the {noun} {at} {private}doesn't make itself {word}; let it, in {scope} scope"
        )
    }

    fn class_words(&self, subject: Subject, class: u8, goal: Goal) -> String {
        let rows = &self.run.rows;
        let noun = match subject.row.order {
            RELEASE => "release",
            ACQUIRE => "acquire",
            _ => "barrier",
        };
        let named = names::classes(subject.row.classes);
        let word = names::class(class);
        let racing = [goal.first, goal.second]
            .into_iter()
            .filter(|racing| rows[*racing].class == class)
            .min_by_key(|racing| rows[*racing].agent != subject.row.agent);
        let wanted = match racing {
            Some(racing) => {
                let what = if rows[racing].writes() {
                    "write"
                } else {
                    "read"
                };
                format!("the {what} in row {racing} is in {word}")
            }
            None => format!("{word} is wanted too"),
        };
        format!(
            "the {noun} {} names {named}, {wanted}; add {word}",
            subject.at
        )
    }
}

fn not_atomic_words(rows: &[usize], scope: u8) -> String {
    let (be, what, them) = match rows.len() {
        1 => ("is", "a plain access", "it a relaxed atomic"),
        _ => ("are", "plain accesses", "them relaxed atomics"),
    };
    format!(
        "{} {be} {what}; make {them} in {} scope, which ends the race and orders nothing",
        rows_words(rows),
        names::scope(scope)
    )
}

fn handshake_words(before: usize, after: usize, scope: u8, classes: u8) -> String {
    // On some devices one of them never runs while the other waits.
    let caution = match scope {
        SUBGROUP => "; invocations of one subgroup may wait for each other for ever",
        _ => "",
    };
    format!(
        "put in a release after row {before}, an atomic write of a flag that makes available, and an acquire before row {after}, an atomic read that waits for that and makes visible, both for {} in {} scope{caution}",
        names::classes(classes),
        names::scope(scope)
    )
}

fn too_narrow_words(subject: Subject, scope: u8, is_ranked: bool) -> String {
    let verb = verb(subject.row);
    let has = names::scope(subject.row.scope);
    let ranked = if is_ranked {
        ", with a rank of its own"
    } else {
        ""
    };
    format!(
        "the scope is too narrow: {} {verb} its {has} only; widen it to {}{ranked}",
        subject.name,
        names::scope(scope)
    )
}

fn order_words(subject: Subject, order: u8, classes: u8, is_flagged: bool) -> String {
    let lacks = match order {
        RELEASE => "release",
        ACQUIRE => "acquire",
        _ => "release and acquire",
    };
    let kind = names::kind(subject.row.kind);
    let has = names::order(subject.row.order);
    let article = names::article(&has);
    let mut words = format!(
        "{} is {article} {has} {kind} and doesn't {lacks}; make it",
        subject.name
    );
    words += &match (subject.row.order, order) {
        (0, BOTH) => format!(" acquire and release for {}", names::classes(classes)),
        (0, _) => format!(" {lacks} for {}", names::classes(classes)),
        _ => format!(" {lacks} too"),
    };
    if is_flagged {
        let flags = match order {
            RELEASE => "available",
            ACQUIRE => "visible",
            _ => "available and visible",
        };
        words += &format!(" and make {flags}");
    }
    words
}

/// What a row does in its scope.
fn verb(row: Row) -> &'static str {
    match (row.is_plain(), row.order) {
        (true, _) if row.writes() => "makes available to",
        (true, _) => "makes visible from",
        (_, 0) => "is ordered within",
        (_, 1) => "acquires from",
        (_, 2) => "releases to",
        _ => "acquires from and releases to",
    }
}
