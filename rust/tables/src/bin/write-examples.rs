//! Writes the tables of the folder `examples` into the folder that is named.

use std::path::Path;
use std::process::ExitCode;
use std::{env, fs};
use tables::examples;

fn main() -> ExitCode {
    let Some(folder) = env::args_os().nth(1) else {
        eprintln!("usage: write-examples FOLDER");
        return ExitCode::from(2);
    };
    for example in examples() {
        let path = Path::new(&folder).join(format!("{}.table", example.name));
        if let Err(error) = fs::write(&path, example.bytes) {
            eprintln!("{}: {error}", path.display());
            return ExitCode::FAILURE;
        }
    }
    ExitCode::SUCCESS
}
