//! Finds libstramashly.a and has it linked in.

use std::env;
use std::path::{Path, PathBuf};

fn main() {
    println!("cargo:rerun-if-env-changed=STRAMASHLY_LIB_DIR");
    let folder = library_folder();
    let archive = folder.join("libstramashly.a");
    println!("cargo:rerun-if-changed={}", archive.display());
    if !archive.is_file() {
        // A linker's message would not say what to do about it.
        eprintln!("{} is missing", archive.display());
        eprintln!("make it with `tools/library`, or set STRAMASHLY_LIB_DIR");
        std::process::exit(1);
    }
    println!("cargo:rustc-link-search=native={}", folder.display());
    println!("cargo:rustc-link-lib=static=stramashly");
}

/// The folder that is asked for, else the one that `tools/library` writes to.
fn library_folder() -> PathBuf {
    match env::var_os("STRAMASHLY_LIB_DIR") {
        Some(folder) => PathBuf::from(folder),
        None => Path::new(env!("CARGO_MANIFEST_DIR")).join("../../target/staticlib"),
    }
}
