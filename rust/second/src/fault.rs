//! Which condition of a refusal is broken, for those who put it into words.

/// A condition that is broken, and alone is enough for its refusal.
#[derive(Clone, Debug, PartialEq, Eq)]
pub enum Fault {
    /// 1: fewer bytes than a header has.
    Short { bytes: usize },
    /// 2: a version that isn't known.
    Version { version: u8 },
    /// 2: byte 7 isn't zero.
    Byte7 { value: u8 },
    /// 3: too many agents.
    Agents { agents: u8 },
    /// 3: too many rows.
    Rows { rows: u8 },
    /// 4: the count in bytes 0 to 3 isn't what agents and rows take.
    Count { count: u32, wanted: usize },
    /// 4: the table isn't 4 bytes longer than agents and rows take.
    Length { bytes: usize, wanted: usize },
    /// 4: a table of version 3 ends before its count of dependencies.
    NoCount { bytes: usize, least: usize },
    /// 5: the code in a byte of the row is above the last that has a meaning.
    Code { at: usize, value: u8, most: u8 },
    /// 5: an agent that there isn't.
    NoAgent { agent: u8, agents: usize },
    /// 6 or 20: a field that doesn't fit the row's kind.
    Unfit(Misfit),
    /// 7: no bytes.
    Empty,
    /// 7: more bytes than an access may have.
    Long { bytes: u8 },
    /// 7: bytes after the last one.
    PastEnd { start: u16, bytes: u8 },
    /// 7: an atomic of another length than 4 or 8.
    AtomicLength { bytes: u8 },
    /// 7: an atomic whose start isn't a multiple of its length.
    Alignment { start: u16, bytes: u8 },
    /// 8: an earlier access gave the reference another class.
    OtherClass { earlier: usize },
    /// 9: a blank, which a fill may or may not take.
    Blank { is_plain: bool },
    /// 9: the source is no row.
    NoRow { source: u16, rows: usize },
    /// 9: the source is the reader itself.
    Itself,
    /// 9: the source doesn't write.
    NoWriter { source: usize },
    /// 9: the source doesn't write all that was read.
    Uncovered { source: usize },
    /// 10: an earlier writer, mutually-ordered with this one, has its rank.
    SameRank { earlier: usize },
    /// 14: an earlier row of the instance has another execution scope.
    OtherExecution { earlier: usize },
    /// 14: an earlier row of the instance is the same agent's.
    SameAgent { earlier: usize },
    /// 14: an earlier row of the instance is by an agent outside the scope.
    Apart { earlier: usize },
    /// 15: counted ranks of these writers that no run of counts holds.
    Ranks { writers: Vec<usize> },
    /// 16: an agent is neither shader nor host nor queue.
    AgentSort { agent: usize, sort: u16 },
    /// 17: too many dependencies.
    Dependencies { count: usize },
    /// 18: a dependency names a row that there isn't.
    Dependency {
        number: usize,
        row: u16,
        rows: usize,
    },
    /// 19: a kind that the row's agent, of this sort, may not have.
    AgentRow { sort: u16 },
}

/// A condition of kind fit that a row breaks.
#[derive(Clone, Copy, Debug, PartialEq, Eq)]
pub enum Misfit {
    /// A row that doesn't read has a source.
    Source,
    /// A row that is no atomic writer has a rank.
    Rank,
    /// A field must be 0, the one at this byte of the row.
    NotZero { at: usize },
    /// A plain row has an order.
    PlainOrder,
    /// A plain row has semantics classes.
    PlainClasses,
    /// A plain read makes available.
    ReadAvailable,
    /// A plain write makes visible.
    WriteVisible,
    /// A plain row that makes available or visible is private.
    PrivateFlags,
    /// A plain row that makes neither has a scope.
    PlainScope,
    /// What is no release makes available.
    NoRelease,
    /// What is no acquire makes visible.
    NoAcquire,
    /// What is relaxed has semantics classes.
    RelaxedClasses,
    /// What isn't relaxed has none.
    NoClasses,
    /// An atomic is private.
    PrivateAtomic,
    /// An atomic read releases.
    ReadReleases,
    /// An atomic write acquires.
    WriteAcquires,
    /// A barrier that is no control barrier is relaxed.
    RelaxedBarrier,
    /// A barrier is non-private.
    NonPrivateBarrier,
}

/// The conditions that are broken.
pub(crate) fn broken<T, const N: usize>(conditions: [(bool, T); N]) -> Vec<T> {
    let broken = conditions.into_iter().filter(|(is_broken, _)| *is_broken);
    broken.map(|(_, condition)| condition).collect()
}
