//! A table's bytes, made by the proved writer, and the admission of bytes by the
//! proved library.

use second::table::Row;
use second::{row_bytes, Values};
use stramashly::{Refusal, Rows, TableWriter};

/// The bytes of a table: its version, each agent's family, workgroup, subgroup
/// and sort, the rows with their sources, and pairs of rows of which the second
/// depends on the first. What a fill refuses is refused, and so is what a version
/// has no bytes for: sorts (16) and dependencies (17) of versions 1 and 2.
pub fn assemble(
    version: u8,
    places: &[[u16; 4]],
    rows: &[Row],
    dependencies: &[[u16; 2]],
) -> Result<Vec<u8>, Refusal> {
    let mut writer = TableWriter::new(version);
    for place in places {
        writer.place(*place);
    }
    for row in rows {
        writer.row(stramashly::Row::from_bytes(row_bytes(*row)));
    }
    for [first, second] in dependencies {
        writer.depend(*first, *second);
    }
    writer.write()
}

/// A table that a fill admits, made anew of what the proved reader gives; the
/// refusal of any other.
pub fn remade(table: &[u8]) -> Result<Vec<u8>, Refusal> {
    TableWriter::read(table)?.write()
}

/// The bytes of parts that the writer refuses, for whoever tells why: a check
/// may refuse them for something else, an explanation shows them.
pub(crate) fn refused_bytes(
    version: u8,
    places: &[[u16; 4]],
    rows: &[Row],
    dependencies: &[[u16; 2]],
) -> Vec<u8> {
    let values = Values {
        version,
        places: places.to_vec(),
        rows: rows.to_vec(),
        dependencies: dependencies.to_vec(),
    };
    values.bytes()
}

/// Why a fill refuses a table, by the proved library, if it does.
pub fn admission(table: &[u8]) -> Option<Refusal> {
    Rows::open(table).err()
}
