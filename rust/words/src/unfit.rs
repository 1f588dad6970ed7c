//! Kind fit, condition by condition: the words for a field that doesn't fit a
//! row's kind.

use crate::names;
use mend::Field;
use second::table::Row;
use second::{Misfit, INITIAL};

/// The field that would have to be another, and why.
pub fn unfit_words(row: Row, misfit: Misfit) -> (Field, String) {
    let kind = names::kind(row.kind);
    let a = names::article(&kind);
    let order = names::order(row.order);
    let classes = names::classes(row.classes);
    match misfit {
        Misfit::Source => (
            Field::Source,
            format!(
                "{a} {kind} doesn't read: its source must be {INITIAL}, and is {}",
                row.source
            ),
        ),
        Misfit::Rank => (
            Field::Rank,
            format!("{a} {kind} has no rank: it must be 0, and is {}", row.rank),
        ),
        Misfit::NotZero { at } => {
            let field = Field::at(at);
            let does = match row.is_queue_operation() {
                true => "covers all memory",
                false => "accesses nothing",
            };
            let (name, value) = (field.name(), field.of(row));
            let words = format!("{a} {kind} {does}: its {name} must be 0, and is {value}");
            (field, words)
        }
        Misfit::PlainOrder => (
            Field::Order,
            format!(
                "{a} {kind} has no order: it must be 0, and is {} ({order})",
                row.order
            ),
        ),
        Misfit::PlainClasses => (
            Field::Classes,
            format!("{a} {kind} has no semantics classes, and this one has {classes}"),
        ),
        Misfit::ReadAvailable => (Field::Flags, format!("{a} {kind} can't make available")),
        Misfit::WriteVisible => (Field::Flags, format!("{a} {kind} can't make visible")),
        Misfit::PrivateFlags => (
            Field::Flags,
            format!("{a} {kind} that makes available or visible must be non-private"),
        ),
        Misfit::PlainScope => (
            Field::Scope,
            format!(
                "{a} {kind} that makes nothing available or visible has invocation scope, and this one has {} scope",
                names::scope(row.scope)
            ),
        ),
        Misfit::NoRelease => (
            Field::Flags,
            format!("only a release makes available, and this {kind} is {order}"),
        ),
        Misfit::NoAcquire => (
            Field::Flags,
            format!("only an acquire makes visible, and this {kind} is {order}"),
        ),
        Misfit::RelaxedClasses => (
            Field::Classes,
            format!("a relaxed {kind} has no semantics classes, and this one has {classes}"),
        ),
        Misfit::NoClasses => (
            Field::Classes,
            format!("{a} {kind} that is {order} needs semantics classes, and this one has none"),
        ),
        Misfit::PrivateAtomic => (Field::Flags, format!("{a} {kind} must be non-private")),
        Misfit::ReadReleases => (
            Field::Order,
            format!("{a} {kind} is relaxed or acquire, and this one is {order}"),
        ),
        Misfit::WriteAcquires => (
            Field::Order,
            format!("{a} {kind} is relaxed or release, and this one is {order}"),
        ),
        Misfit::RelaxedBarrier => (Field::Order, format!("{a} {kind} can't be relaxed")),
        Misfit::NonPrivateBarrier => (
            Field::Flags,
            format!("{a} {kind} can't be non-private: it accesses nothing"),
        ),
    }
}
