//! The files of the folder `examples` are the tables that are described here.

use std::collections::BTreeMap;
use std::fs;
use std::path::{Path, PathBuf};
use std::process::Command;
use tables::examples;

fn tables_in(folder: &Path) -> BTreeMap<String, Vec<u8>> {
    let files = fs::read_dir(folder)
        .unwrap()
        .map(|file| file.unwrap().path());
    files
        .filter(|path| path.extension().is_some_and(|ending| ending == "table"))
        .map(|path| {
            let name = path.file_stem().unwrap().to_str().unwrap().to_string();
            (name, fs::read(path).unwrap())
        })
        .collect()
}

fn described() -> BTreeMap<String, Vec<u8>> {
    let named = |example: tables::Example| (example.name.to_string(), example.bytes);
    examples().into_iter().map(named).collect()
}

#[test]
fn the_folder_holds_just_these_tables() {
    assert_eq!(described().len(), examples().len(), "a name twice");
    let folder = Path::new(env!("CARGO_MANIFEST_DIR")).join("../../examples");
    assert!(
        tables_in(&folder) == described(),
        "run write-examples, and delete what it doesn't write"
    );
}

#[test]
fn the_program_writes_them() {
    let folder = PathBuf::from(env!("CARGO_TARGET_TMPDIR")).join("examples");
    // Another day's tables may lie there.
    let _ = fs::remove_dir_all(&folder);
    fs::create_dir_all(&folder).unwrap();
    let status = Command::new(env!("CARGO_BIN_EXE_write-examples"))
        .arg(&folder)
        .status()
        .unwrap();
    assert!(status.success());
    assert!(tables_in(&folder) == described());
    let status = Command::new(env!("CARGO_BIN_EXE_write-examples"))
        .status()
        .unwrap();
    assert_eq!(status.code(), Some(2));
}
