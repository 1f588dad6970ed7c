//! What a check found, by what it is and not by the run that showed it: a
//! sentence, its likely cause, and a fingerprint that stays the same from run to
//! run.

use format::{flags, kind, scope, sort, Row, INITIAL, ROW_BYTES};
use mend::{first_row, Notes};
use std::fmt;
use stramashly::{CheckAnswer, Refusal};
use words::{CLASSES, KINDS};

/// A finding. Two of the same lines, or of rows of the same kinds for the same
/// cause, are one.
#[derive(Clone, Debug, PartialEq, Eq)]
pub struct Found {
    pub what: String,
    /// Of a race.
    pub cause: Option<Cause>,
    pub fingerprint: Fingerprint,
}

/// Sixteen hex digits.
#[derive(Clone, Copy, Debug, PartialEq, Eq, PartialOrd, Ord, Hash)]
pub struct Fingerprint(u64);

impl Fingerprint {
    /// FNV-1a, which is the same on every machine and in every version.
    fn of(text: &str) -> Fingerprint {
        let bytes = text.bytes();
        Fingerprint(bytes.fold(0xcbf2_9ce4_8422_2325, |hash, byte| {
            (hash ^ u64::from(byte)).wrapping_mul(0x0100_0000_01b3)
        }))
    }

    pub fn parse(text: &str) -> Option<Fingerprint> {
        let is_whole = text.len() == 16 && text.bytes().all(|letter| letter.is_ascii_hexdigit());
        let number = u64::from_str_radix(text, 16).ok();
        number.filter(|_| is_whole).map(Fingerprint)
    }
}

impl fmt::Display for Fingerprint {
    fn fmt(&self, formatter: &mut fmt::Formatter) -> fmt::Result {
        write!(formatter, "{:016x}", self.0)
    }
}

/// What a racing pair lacks, read off its rows: the first that holds, in this
/// order. Whether it is all that is missing, `explain` says.
#[derive(Clone, Copy, Debug, PartialEq, Eq, PartialOrd, Ord, Hash)]
pub enum Cause {
    Host,
    Private,
    References,
    Atomics,
    Unavailable,
    NarrowAvailable,
    Invisible,
    NarrowVisible,
    Unsynchronized,
}

impl fmt::Display for Cause {
    fn fmt(&self, formatter: &mut fmt::Formatter) -> fmt::Result {
        formatter.write_str(match self {
            Cause::Host => "no way between host and device",
            Cause::Private => "an access is private",
            Cause::References => "two references to the same bytes",
            Cause::Atomics => "atomics out of each other's scope or of other bytes",
            Cause::Unavailable => "nothing makes the write available",
            Cause::NarrowAvailable => "made available in too narrow a scope",
            Cause::Invisible => "nothing makes the write visible",
            Cause::NarrowVisible => "made visible in too narrow a scope",
            Cause::Unsynchronized => "no synchronization",
        })
    }
}

/// What a check answered of a table; nothing of a race-free one.
pub fn found(table: &[u8], notes: &Notes, answer: &CheckAnswer) -> Option<Found> {
    let part = |words: &str, rows: &[u16]| place_of(table, notes, words, rows);
    Some(match answer {
        CheckAnswer::RaceFree => return None,
        CheckAnswer::Race { first, second, .. } => race(table, notes, (*first, *second)),
        CheckAnswer::Overwritten { reader, writer, .. } => part("overwritten", &[*reader, *writer]),
        CheckAnswer::Cycle { rows, edges } => {
            let edges: Vec<String> = edges.iter().map(u16::to_string).collect();
            part(&format!("cycle by edges {}", edges.join(" ")), rows)
        }
        CheckAnswer::Refused { number, row } => {
            let refusal = Refusal {
                number: *number,
                row: *row,
            };
            let (name, sentence) = (refusal.name(), refusal.sentence());
            let (name, sentence) = (name.unwrap_or("?"), sentence.unwrap_or("unknown"));
            let what = format!("refused {number} {name}: {sentence}");
            Found {
                fingerprint: Fingerprint::of(&format!("refused {number}")),
                what,
                cause: None,
            }
        }
        _ => return None,
    })
}

/// A race of two rows.
pub fn race(table: &[u8], notes: &Notes, (first, second): (u16, u16)) -> Found {
    let rows = Rows::of(table);
    let cause = rows.cause(first.into(), second.into());
    let places = [first, second].map(|row| notes.place(row.into()));
    let (what, key) = if let [Some(one), Some(other)] = places {
        let mut places = [one.to_string(), other.to_string()];
        places.sort();
        let what = format!("race of {} and {}", places[0], places[1]);
        (what.clone(), what)
    } else {
        let mut kinds = [first, second].map(|row| rows.described(row.into()));
        kinds.sort();
        let what = format!("race of {} and {}", kinds[0], kinds[1]);
        let key = format!("{what}: {cause}");
        (what, key)
    };
    Found {
        what: format!("{what}: {cause}"),
        cause: Some(cause),
        fingerprint: Fingerprint::of(&key),
    }
}

/// A finding that is no race: by the lines of its rows, else by their kinds.
fn place_of(table: &[u8], notes: &Notes, words: &str, numbers: &[u16]) -> Found {
    let rows = Rows::of(table);
    let places = numbers.iter().map(|row| match notes.place((*row).into()) {
        Some(place) => place.to_string(),
        None => rows.described((*row).into()),
    });
    let places: Vec<String> = places.collect();
    let what = format!("{words}: {}", places.join(", "));
    Found {
        fingerprint: Fingerprint::of(&what),
        what,
        cause: None,
    }
}

/// How many pairs of an accepted table's rows share a byte that one of them
/// writes: what the library's report counts too.
pub fn conflicting(table: &[u8]) -> u64 {
    let rows = Rows::of(table);
    // Accesses as first byte, last byte and whether they write.
    let mut accesses = [(0u32, 0u32, false); 256];
    let mut count = 0;
    let mut pairs = 0;
    for row in (0..rows.count).map(|row| rows.row(row)) {
        if !row.is_access() || row.length == 0 {
            continue;
        }
        let access = (u32::from(row.start), row.end(), row.writes());
        let earlier = accesses[..count].iter();
        let meets = |(start, end, writes): &&(u32, u32, bool)| {
            *start < access.1 && access.0 < *end && (*writes || access.2)
        };
        pairs += earlier.filter(meets).count() as u64;
        accesses[count] = access;
        count += 1;
    }
    pairs
}

/// The rows and agents of a table that a check has judged.
struct Rows<'a> {
    table: &'a [u8],
    begin: usize,
    count: usize,
}

impl Rows<'_> {
    fn of(table: &[u8]) -> Rows<'_> {
        // A refused one may not have a header.
        let begin = if table.len() < 8 {
            table.len()
        } else {
            first_row(table)
        };
        let whole = table.len().saturating_sub(begin) / ROW_BYTES;
        let count = table.get(6).map_or(0, |count| usize::from(*count));
        Rows {
            table,
            begin,
            count: count.min(whole),
        }
    }

    fn row(&self, number: usize) -> Row {
        let at = self.begin + ROW_BYTES * number;
        let bytes = self.table.get(at..at + ROW_BYTES);
        let bytes = bytes.and_then(|bytes| bytes.try_into().ok());
        Row::from_bytes(bytes.unwrap_or_default())
    }

    /// Kind, class, and flags of an access.
    fn described(&self, number: usize) -> String {
        let row = self.row(number);
        let kind = KINDS.get(usize::from(row.kind)).unwrap_or(&"row");
        match CLASSES.get(usize::from(row.class)) {
            Some(class) if row.is_access() => format!("{kind} of {class}"),
            _ => kind.to_string(),
        }
    }

    /// The numbers of an agent's place, and its sort.
    fn place(&self, agent: u8) -> [u16; 4] {
        let width = if self.table.get(4) == Some(&3) { 4 } else { 3 };
        let mut numbers = [0; 4];
        for (number, place) in numbers.iter_mut().zip(0..width) {
            let at = 8 + 2 * (width * usize::from(agent) + place);
            if let Some(&[high, low]) = self.table.get(at..at + 2) {
                *number = u16::from_be_bytes([high, low]);
            }
        }
        numbers
    }

    /// Whether two shader agents share a scope.
    fn share(&self, one: u8, other: u8, within: u8) -> bool {
        let (first, second) = (self.place(one), self.place(other));
        match within {
            scope::INVOCATION => one == other,
            scope::SUBGROUP => first[..3] == second[..3],
            scope::WORKGROUP => first[..2] == second[..2],
            scope::FAMILY => first[0] == second[0],
            _ => true,
        }
    }

    fn cause(&self, first: usize, second: usize) -> Cause {
        let (mut x, mut y) = ((first, self.row(first)), (second, self.row(second)));
        let is_host = |row: Row| self.place(row.agent)[3] != sort::SHADER;
        if is_host(x.1) || is_host(y.1) {
            return Cause::Host;
        }
        if (x.1.flags & y.1.flags) & flags::NON_PRIVATE == 0 {
            return Cause::Private;
        }
        if x.1.reference != y.1.reference {
            return Cause::References;
        }
        if x.1.is_atomic() && y.1.is_atomic() {
            return Cause::Atomics;
        }
        // The write comes first, unless the other has read something else before it.
        if !x.1.writes() {
            std::mem::swap(&mut x, &mut y);
        }
        let reads = |row: Row| row.reads() && row.kind != kind::RMW;
        if reads(y.1) && usize::from(y.1.source) != x.0 && y.1.source != INITIAL {
            return Cause::Unsynchronized;
        }
        let available = self.made(x, y.1.agent, flags::MAKE_AVAILABLE, |row| row > x.0);
        let visible = self.made(y, x.1.agent, flags::MAKE_VISIBLE, |row| row < y.0);
        match (available, visible) {
            (Made::Nowhere, _) => Cause::Unavailable,
            (Made::TooNarrow, _) => Cause::NarrowAvailable,
            (Made::Here, _) if !y.1.reads() => Cause::Unsynchronized,
            (Made::Here, Made::Nowhere) => Cause::Invisible,
            (Made::Here, Made::TooNarrow) => Cause::NarrowVisible,
            (Made::Here, Made::Here) => Cause::Unsynchronized,
        }
    }

    /// Whether the row itself or one of its agent's on one side has a flag for its
    /// class, in a scope that the other agent shares.
    fn made(
        &self,
        (number, row): (usize, Row),
        other: u8,
        flag: u8,
        is_aside: impl Fn(usize) -> bool,
    ) -> Made {
        let mut made = Made::Nowhere;
        for at in 0..self.count {
            let helper = self.row(at);
            let is_itself = at == number && row.is_plain();
            let is_barrier = !helper.is_plain() && helper.classes & (1 << row.class) != 0;
            let is_near = is_itself || is_aside(at) && is_barrier;
            if helper.agent == row.agent && is_near && helper.flags & flag != 0 {
                if self.share(row.agent, other, helper.scope) {
                    return Made::Here;
                }
                made = Made::TooNarrow;
            }
        }
        made
    }
}

enum Made {
    Nowhere,
    TooNarrow,
    Here,
}

#[cfg(test)]
mod tests {
    use super::*;
    use stramashly::{Checker, ReportAnswer};
    use tables::{checkable, examples, hosted, Random, Size};

    #[test]
    fn pairs_are_those_of_the_report() {
        let mut random = Random::new(45);
        let mut checker = Checker::new();
        let size = Size {
            least: 1,
            most: 128,
        };
        let mut reports = 0;
        for number in 0..400 {
            let table = match number % 4 {
                0 => hosted(&mut random, size),
                _ => checkable(&mut random, size),
            };
            let table = table.bytes();
            if let ReportAnswer::Report(report) = checker.report(&table) {
                assert_eq!(conflicting(&table), u64::from(report.conflicting));
                reports += 1;
            }
        }
        assert!(reports > 100, "{reports}");
        assert_eq!(conflicting(&[]), 0);
        assert_eq!(conflicting(&[0, 0, 0, 4, 1, 0, 128, 0]), 0);
    }

    fn cause(name: &str) -> Option<Cause> {
        let example = examples().into_iter().find(|example| example.name == name);
        let table = example.expect(name).bytes;
        let answer = Checker::new().check(&table).into_owned();
        let answer = answer.borrowed();
        found(&table, &Notes::default(), &answer)?.cause
    }

    #[test]
    fn causes_of_the_examples() {
        for (name, expected) in [
            ("leak", Cause::Unavailable),
            ("p-private", Cause::Private),
            ("p-not-visible", Cause::Invisible),
            ("p-two-workgroups", Cause::NarrowAvailable),
            ("other-class", Cause::Unavailable),
            ("upload-no-domain", Cause::Host),
        ] {
            assert_eq!(cause(name), Some(expected), "{name}");
        }
        for name in ["p", "p-initial", "overwritten", "too-long"] {
            assert_eq!(cause(name), None, "{name}");
        }
    }

    #[test]
    fn fingerprints_are_read_back() {
        let print = Fingerprint::of("race");
        assert_eq!(Fingerprint::parse(&print.to_string()), Some(print));
        assert_eq!(Fingerprint::parse("race"), None);
        assert_eq!(Fingerprint::parse("+123456789abcdef"), None);
        // As any other program counts it.
        assert_eq!(Fingerprint::of("").to_string(), "cbf29ce484222325");
        assert_eq!(Fingerprint::of("a").to_string(), "af63dc4c8601ec8c");
    }
}
