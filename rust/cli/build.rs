//! What `--version` tells besides the version: the commit, and the kit that the
//! library was proved with.

use std::env;
use std::fs;
use std::path::{Path, PathBuf};
use std::process::Command;

fn main() {
    let commit = given("STRAMASHLY_COMMIT").unwrap_or_else(commit);
    let kit = given("STRAMASHLY_KIT").unwrap_or_else(kit);
    println!("cargo:rustc-env=STRAMASHLY_BUILT_COMMIT={commit}");
    println!("cargo:rustc-env=STRAMASHLY_BUILT_KIT={kit}");
}

/// What whoever packages it says.
fn given(name: &str) -> Option<String> {
    println!("cargo:rerun-if-env-changed={name}");
    env::var(name).ok().filter(|value| !value.is_empty())
}

/// The commit that the sources are of, or were changed from.
fn commit() -> String {
    let top = Path::new(env!("CARGO_MANIFEST_DIR")).join("../..");
    let git = |words: &[&str]| {
        let output = Command::new("git").arg("-C").arg(&top).args(words).output();
        let output = output.ok().filter(|output| output.status.success())?;
        let text = String::from_utf8(output.stdout).ok()?;
        Some(text.trim().to_string())
    };
    // The log of the head has a line more with each commit.
    if let Some(path) = git(&["rev-parse", "--git-path", "logs/HEAD"]) {
        println!("cargo:rerun-if-changed={}", top.join(path).display());
    }
    match git(&["rev-parse", "--short=12", "HEAD"]) {
        Some(commit) => commit,
        None => "unknown".to_string(),
    }
}

/// What `rt version` said when the library was proved, noted beside it.
fn kit() -> String {
    println!("cargo:rerun-if-env-changed=STRAMASHLY_LIB_DIR");
    let folder = match env::var_os("STRAMASHLY_LIB_DIR") {
        Some(folder) => PathBuf::from(folder),
        None => Path::new(env!("CARGO_MANIFEST_DIR")).join("../../target/staticlib"),
    };
    let note = folder.join("libstramashly.a.kit");
    println!("cargo:rerun-if-changed={}", note.display());
    let kit = fs::read_to_string(note).unwrap_or_default();
    match kit.lines().next().map(str::trim) {
        Some(kit) if !kit.is_empty() => kit.to_string(),
        _ => "unknown".to_string(),
    }
}
