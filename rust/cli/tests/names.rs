//! Every name in backticks in docs/RULES.md, FORMAT.md and DECISIONS.md that
//! looks like a definition, a function, a crate or a file is one of the sources.

use std::collections::BTreeSet;
use std::fs;
use std::path::{Path, PathBuf};

/// Names of others: Vulkan's, SPIR-V's, Rust's, the prover's, and those of
/// programs.
const FOREIGN: [&str; 18] = [
    "appendices/memorymodel.adoc",
    "6666fa32b8da…",
    "vulkanMemoryModelAvailabilityVisibilityChains",
    "OpControlBarrier",
    "MakePointerAvailable",
    "MakePointerVisible",
    "NonPrivatePointer",
    "UniformMemory",
    "Copy",
    "Iterator",
    "Result",
    "break",
    "match",
    "non_exhaustive",
    "refl",
    "requires",
    "cargo",
    "libstramashly.so.0.2",
];

/// What the sources declare.
#[derive(Default)]
struct Sources {
    root: PathBuf,
    /// Definitions, laws, functions, types, fields, variants and files.
    names: BTreeSet<String>,
    files: BTreeSet<String>,
}

impl Sources {
    /// Those below `folders` of the repository.
    fn below(folders: &[&str]) -> Sources {
        let root = PathBuf::from(concat!(env!("CARGO_MANIFEST_DIR"), "/../.."));
        let mut sources = Sources {
            root: root.clone(),
            ..Sources::default()
        };
        for folder in folders {
            sources.add(&root.join(folder));
        }
        sources
    }

    /// The specifications of the crates and their laws, without the proofs of
    /// functions, and the crates.
    fn definitions() -> Sources {
        let mut sources = Sources::below(&[]);
        for entry in fs::read_dir(sources.root.join("crates")).unwrap() {
            let entry = entry.unwrap();
            let name = entry.file_name();
            sources.names.insert(name.to_string_lossy().into_owned());
            for part in ["specs", "proofs"] {
                let files = fs::read_dir(entry.path().join(part));
                let files = files.into_iter().flatten().map(|file| file.unwrap().path());
                let files = files.filter(|file| file.is_file());
                files.for_each(|file| sources.add(&file));
            }
        }
        sources
    }

    fn add(&mut self, path: &Path) {
        let name = path.file_name().unwrap_or_default().to_string_lossy();
        if path.is_dir() {
            if !["target", "out"].contains(&&*name) {
                self.names.insert(name.into_owned());
                let entries = fs::read_dir(path).unwrap();
                entries.for_each(|entry| self.add(&entry.unwrap().path()));
            }
            return;
        }
        let (stem, extension) = name.rsplit_once('.').unwrap_or((&name, ""));
        match (extension, fs::read_to_string(path)) {
            ("antt", Ok(text)) => text.lines().for_each(|line| self.add_definition(line)),
            ("rt" | "rs" | "h", Ok(text)) => text.lines().for_each(|line| self.add_code(line)),
            _ => (),
        }
        self.names.insert(stem.to_string());
        self.files.insert(name.into_owned());
    }

    /// A line of a specification that declares something for other files.
    fn add_definition(&mut self, line: &str) {
        let line = line.trim_start();
        let mut rest = line;
        for word in ["unfoldable ", "abbrev ", "pub ", "record ", "data "] {
            rest = rest.strip_prefix(word).unwrap_or(rest);
        }
        if rest.len() < line.len() {
            self.names
                .extend(rest.split([' ', ':', '(']).next().map(str::to_string));
        }
    }

    /// A line of code: what follows a keyword, a field, a variant, and what stands
    /// in quotes.
    fn add_code(&mut self, line: &str) {
        if line.trim_start().starts_with("//") {
            return;
        }
        let is_part = |letter: char| letter.is_alphanumeric() || letter == '_';
        let words: Vec<&str> = line.split(|letter| !is_part(letter)).collect();
        let keywords = ["fn", "struct", "enum", "const", "mod", "type", "define"];
        for pair in words.windows(2) {
            if keywords.contains(&pair[0]) || pair[1].starts_with("STRAMASHLY") {
                self.names.insert(pair[1].to_string());
            }
        }
        let line = line.trim_start();
        let first = line.trim_start_matches("pub ");
        let end = first.find(|letter| !is_part(letter)).unwrap_or(first.len());
        let is_field = line.starts_with("pub ") && first[end..].starts_with(':');
        if is_field || line.starts_with(char::is_uppercase) {
            self.names.insert(first[..end].to_string());
        }
        let quoted = line.split('"').skip(1).step_by(2);
        let quoted = quoted.filter(|word| !word.contains(' '));
        self.names.extend(quoted.map(str::to_string));
    }

    /// A name, one without the prefix that C's functions have, or a prefix.
    fn has(&self, name: &str) -> bool {
        let is_prefix = |other: &String| name.ends_with('_') && other.starts_with(name);
        self.names.contains(name)
            || self.names.contains(&format!("stramashly_{name}"))
            || self.names.iter().any(is_prefix)
    }

    /// A file or folder of the repository, or of its crates, whose end may be left
    /// out.
    fn has_path(&self, path: &str) -> bool {
        let ends = ["", ".antt", ".rt"];
        let below = |folder: &str, end: &str| self.root.join(folder).join(format!("{path}{end}"));
        ["", "crates"]
            .iter()
            .any(|folder| ends.iter().any(|end| below(folder, end).exists()))
    }

    fn has_span(&self, span: &str) -> bool {
        let parts = |mark: &str| span.split(mark).all(|part| self.has(part));
        if span.contains('/') {
            self.has_path(span)
        } else if let Some((begin, end)) = span.split_once('…') {
            let is_like = |name: &&String| name.starts_with(begin) && name.ends_with(end);
            self.names.iter().any(|name| is_like(&name))
        } else if span.contains("::") {
            parts("::")
        } else if span.contains('.') {
            self.files.contains(span) || parts(".")
        } else {
            self.has(span)
        }
    }
}

/// What stands in backticks, blocks aside.
fn spans(text: &str) -> Vec<&str> {
    let lines = text.lines().filter(|line| !line.starts_with("    "));
    lines
        .flat_map(|line| line.split('`').skip(1).step_by(2))
        .collect()
}

/// Whether it may be a name: neither a phrase, nor a number, nor bytes, nor an
/// option.
fn is_name(span: &str) -> bool {
    let is_letter = |letter: char| letter.is_alphanumeric() || "_-/:.…₁".contains(letter);
    let begins = |letter: char| letter.is_alphabetic() || letter == '…';
    span.starts_with(begins)
        && span.len() > 1
        && span.chars().all(is_letter)
        && !span
            .chars()
            .all(|letter| matches!(letter, '0'..='9' | 'A'..='F'))
}

/// The names of a text that the sources don't have.
fn missing<'a>(text: &'a str, sources: &Sources) -> Vec<&'a str> {
    let names = spans(text).into_iter().filter(|span| is_name(span));
    let names: Vec<&str> = names.filter(|name| !FOREIGN.contains(name)).collect();
    assert!(names.len() > 15, "{}", names.len());
    let missing = names.into_iter().filter(|name| !sources.has_span(name));
    missing.collect()
}

fn document(name: &str) -> String {
    let root = concat!(env!("CARGO_MANIFEST_DIR"), "/../../docs");
    fs::read_to_string(Path::new(root).join(name)).unwrap()
}

/// RULES names definitions and laws, and at its end where the code computes them.
#[test]
fn the_rules_name_what_there_is() {
    let text = document("RULES.md");
    let (rules, code) = text.split_once("\n## Where the code computes").unwrap();
    let nothing: [&str; 0] = [];
    assert_eq!(missing(rules, &Sources::definitions()), nothing);
    assert_eq!(missing(code, &Sources::below(&["crates"])), nothing);
}

/// The others name programs and the C header too.
#[test]
fn the_other_documents_name_what_there_is() {
    let all = Sources::below(&["crates", "rust", "include", "tools", "examples"]);
    for name in ["FORMAT.md", "DECISIONS.md"] {
        let nothing: [&str; 0] = [];
        assert_eq!(missing(&document(name), &all), nothing, "{name}");
    }
}

#[test]
fn a_name_that_nothing_has_is_missed() {
    let sources = Sources::below(&["crates"]);
    for name in [
        "admission",
        "check::check_by",
        "door_write/specs/Promise",
        "written_…",
    ] {
        assert!(is_name(name) && sources.has_span(name), "{name}");
    }
    for name in [
        "admissions",
        "check::check_of",
        "door_write/specs/Promises",
        "wrote_…",
    ] {
        assert!(is_name(name) && !sources.has_span(name), "{name}");
    }
    for span in ["refused 2 0", "FFFF", "00", "--then", "x"] {
        assert!(!is_name(span), "{span}");
    }
}
