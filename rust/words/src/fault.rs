//! What is wrong with a refused table: the words for each broken condition of
//! its refusal.

use crate::names;
use crate::unfit::unfit_words;
use mend::{Field, Run, LAST_VERSION};
use second::table::{DEVICE, HOST, QUEUE};
use second::{Fault, MAX_AGENTS, MAX_DEPENDENCIES, MAX_LENGTH, MAX_ROWS};
use stramashly::MAX_TABLE_BYTES;

/// A broken condition of the refusal that names a row, in words.
pub fn fault_words(run: &Run, row: usize, fault: &Fault) -> String {
    match *fault {
        Fault::Short { bytes } => format!("there are {}", names::counted(bytes, "byte")),
        Fault::Version { version } => {
            format!("byte 4, the version, is {version}; 1 to {LAST_VERSION} are known")
        }
        Fault::Byte7 { value } => format!("byte 7 is {value} and must be 0"),
        Fault::Agents { agents } => {
            format!("byte 5 counts {agents} agents; a table has at most {MAX_AGENTS}")
        }
        Fault::Rows { rows } => {
            format!("byte 6 counts {rows} rows; a table has at most {MAX_ROWS}")
        }
        Fault::Count { count, wanted } => {
            format!("bytes 0 to 3 count {count} bytes after them; its counts ask for {wanted}")
        }
        Fault::NoCount { bytes, least } => format!(
            "the table has {} and ends before the count of dependencies; agents, rows and that count take {least}",
            length_words(bytes)
        ),
        Fault::Length { bytes, wanted } => format!(
            "the table has {}; its counts ask for {wanted}",
            length_words(bytes)
        ),
        Fault::AgentSort { agent, sort } => format!(
            "agent {agent}'s fourth number is {sort}; 0 is a shader, 1 a host, 2 a queue"
        ),
        Fault::Dependencies { count } => {
            format!("{count} dependencies are counted; a table has at most {MAX_DEPENDENCIES}")
        }
        Fault::Dependency { number, row, rows } => format!(
            "dependency {number} names row {row}, and there are {}",
            names::counted(rows, "row")
        ),
        _ => row_words(run, row, fault),
    }
}

/// The words for a condition that is the row's own.
fn row_words(run: &Run, row: usize, fault: &Fault) -> String {
    let fields = run.rows[row];
    match *fault {
        Fault::AgentRow { sort } => {
            let may_have = match sort {
                HOST => "has plain reads and writes only",
                QUEUE => "has availability, visibility and domain operations only",
                _ => "has no operation of a queue",
            };
            let (kind, sort) = (names::kind(fields.kind), names::sort(sort));
            let a = names::article(&kind);
            format!("its agent is a {sort}, which {may_have}, and this is {a} {kind}")
        }
        Fault::Code { at, value, most } => {
            // A control barrier has its execution scope in the class's place.
            let name = match (Field::at(at), most) {
                (Field::Class, DEVICE) => "execution scope",
                (field, _) => field.name(),
            };
            format!("{name} {value} has no meaning; the last is {most}")
        }
        Fault::NoAgent { agent, agents } => {
            let has = match agents {
                0 => "no agents".to_string(),
                1 => "agent 0 only".to_string(),
                _ => format!("agents 0 to {}", agents - 1),
            };
            format!("there is no agent {agent}: the table has {has}")
        }
        Fault::Unfit(misfit) => unfit_words(fields, misfit).1,
        Fault::Empty => "it has no bytes: an access has at least 1".to_string(),
        Fault::Long { bytes } => {
            format!("it has {bytes} bytes; an access has at most {MAX_LENGTH}")
        }
        Fault::PastEnd { start, bytes } => format!(
            "it has {} from byte {start} on and goes past the last one, 65535",
            names::counted(bytes.into(), "byte")
        ),
        Fault::AtomicLength { bytes } => format!(
            "it is atomic and has {}; an atomic has 4 or 8",
            names::counted(bytes.into(), "byte")
        ),
        Fault::Alignment { start, bytes } => format!(
            "it is atomic, has {bytes} bytes and starts at byte {start}, which is no multiple of {bytes}"
        ),
        _ => rows_words(run, row, fault),
    }
}

/// The words for a condition between the row and another.
fn rows_words(run: &Run, row: usize, fault: &Fault) -> String {
    let (rows, fields) = (&run.rows, run.rows[row]);
    match *fault {
        Fault::OtherClass { earlier } => format!(
            "reference {} has class {} in row {earlier}",
            fields.reference,
            names::class(rows[earlier].class)
        ),
        Fault::Blank { is_plain: true } => "its source is blank".to_string(),
        Fault::Blank { is_plain: false } => {
            "its source is blank, and it is atomic: only a plain read may be blank, in a fill too"
                .to_string()
        }
        Fault::NoRow { source, rows } => format!(
            "its source is row {source}, and there are {}",
            names::counted(rows, "row")
        ),
        Fault::Itself => "its source is the row itself".to_string(),
        Fault::NoWriter { source } => {
            let kind = names::kind(rows[source].kind);
            let a = names::article(&kind);
            format!("its source is row {source}, {a} {kind}, which writes nothing")
        }
        Fault::Uncovered { source } => {
            let (written, read) = (names::byte_words(rows[source]), names::byte_words(fields));
            format!("its source, row {source}, writes {written}, and it reads {read}")
        }
        Fault::SameRank { earlier } => format!(
            "row {earlier}, mutually-ordered with it, writes the same place with rank {} too",
            fields.rank
        ),
        Fault::OtherExecution { earlier } => format!(
            "row {earlier} of instance {} has {} execution scope",
            fields.instance(),
            names::scope(rows[earlier].class)
        ),
        Fault::SameAgent { earlier } => {
            let instance = fields.instance();
            format!("row {earlier} of instance {instance} is the same agent's")
        }
        Fault::Apart { earlier } => format!(
            "row {earlier} of instance {} is by an agent that isn't in its {}",
            fields.instance(),
            names::scope(fields.class)
        ),
        Fault::Ranks { ref writers } => {
            let numbers: Vec<String> = writers.iter().map(usize::to_string).collect();
            let ranks = writers.iter().map(|row| rows[*row].rank.to_string());
            format!(
                "rows {} write this place with ranks {}, which no 32768 counts in a row hold",
                names::listed(&numbers),
                names::listed(&ranks.collect::<Vec<_>>())
            )
        }
        // The others are said of the table or of the row alone.
        _ => String::new(),
    }
}

/// More than the largest table's bytes aren't counted: reading stops there.
pub fn length_words(bytes: usize) -> String {
    if bytes > MAX_TABLE_BYTES {
        format!("more than {MAX_TABLE_BYTES} bytes")
    } else {
        names::counted(bytes, "byte")
    }
}
