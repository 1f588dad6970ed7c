//! The C boundary as the library's own source has it: the exported functions of
//! `crates/stramashly_c`, the codes of `crates/stramashly` and the limits of
//! `crates/model` are read there, and the header, this crate's declarations and
//! the Python module are held to them.

use std::collections::{BTreeMap, BTreeSet};
use std::fs;
use std::path::{Path, PathBuf};

/// A function's types as C has them, its result last. A slice is an address
/// and a length.
type Signatures = BTreeMap<String, Vec<String>>;

fn repository() -> PathBuf {
    Path::new(env!("CARGO_MANIFEST_DIR")).join("../..")
}

fn read(file: impl AsRef<Path>) -> String {
    let file = repository().join(file);
    fs::read_to_string(&file).unwrap_or_else(|error| panic!("{}: {error}", file.display()))
}

fn source() -> String {
    let files = [
        "stramashly/src/lib.rt",
        "stramashly/src/packed.rt",
        "stramashly_c/src/lib.rt",
    ];
    files
        .map(|file| read(Path::new("crates").join(file)))
        .concat()
}

/// The text without `//` comments, its lines joined.
fn joined(text: &str) -> String {
    let code = text
        .lines()
        .map(|line| line.split("//").next().unwrap_or(""));
    code.collect::<Vec<_>>().join(" ")
}

/// `name(arguments) -> result` after each of these words.
fn heads<'a>(
    text: &'a str,
    before: &'a str,
) -> impl Iterator<Item = (&'a str, Vec<&'a str>, &'a str)> {
    text.split(before).skip(1).map(|rest| {
        let (name, rest) = rest.split_once('(').expect("arguments");
        let (arguments, rest) = rest.split_once(')').expect("an end of the arguments");
        let arguments = arguments
            .split(',')
            .map(str::trim)
            .filter(|argument| !argument.is_empty());
        let result = rest
            .trim_start()
            .strip_prefix("->")
            .unwrap_or("")
            .trim_start();
        let end = result.find(|letter: char| !letter.is_alphanumeric());
        (
            name.split('<').next().unwrap_or(name).trim(),
            arguments.collect(),
            &result[..end.unwrap_or(result.len())],
        )
    })
}

/// `name: type`, as C takes it.
fn of_rattle(argument: &str) -> Vec<String> {
    let kind = argument.split_once(": ").expect("a type").1;
    let kind = &kind.replace("&'a ", "&");
    let slice = |prefix: &str, address: &str| {
        let element = kind.strip_prefix(prefix)?.strip_suffix(']')?;
        Some(vec![format!("*{address} {element}"), "usize".to_string()])
    };
    let slices = slice("&[", "const").or_else(|| slice("&mut [", "mut"));
    slices.unwrap_or_else(|| vec![kind.replace("&mut ", "*mut ")])
}

fn exported() -> Signatures {
    let text = joined(&source());
    let functions = heads(&text, "pub extern \"C\" fn ").map(|(name, arguments, result)| {
        let mut kinds: Vec<String> = arguments.into_iter().flat_map(of_rattle).collect();
        kinds.push(result.to_string());
        (name.to_string(), kinds)
    });
    functions.collect()
}

fn of_rust() -> Signatures {
    let folder = repository().join("rust/stramashly/src/engine");
    let files = fs::read_dir(folder)
        .expect("the engine")
        .map(|file| file.expect("a file").path());
    let text: String = files.map(|file| joined(&read(file)) + " ").collect();
    let functions = heads(&text, "pub fn stramashly_").map(|(name, arguments, result)| {
        let kind = |argument: &str| argument.split_once(": ").expect("a type").1.to_string();
        let mut kinds: Vec<String> = arguments.into_iter().map(kind).collect();
        kinds.push(result.to_string());
        (format!("stramashly_{name}"), kinds)
    });
    functions.collect()
}

/// A type of C in Rust's words; the name after it is left out.
fn of_c(declaration: &str) -> String {
    let words = declaration.replace('*', " * ");
    let words: Vec<&str> = words.split_whitespace().collect();
    let (address, words) = match words.iter().position(|word| *word == "*") {
        Some(_) if words[0] == "const" => ("*const ", &words[1..]),
        Some(_) => ("*mut ", &words[..]),
        None => ("", &words[..]),
    };
    let kind = match words[0] {
        "uint8_t" => "u8",
        "uint16_t" => "u16",
        "uint64_t" => "u64",
        "size_t" => "usize",
        "double" => "f64",
        other => panic!("type {other}"),
    };
    format!("{address}{kind}")
}

/// The header without its comments, in one line.
fn header() -> String {
    let text = read("include/stramashly.h");
    let parts = text
        .split("/*")
        .map(|part| part.split_once("*/").map_or(part, |(_, code)| code));
    parts.collect::<Vec<_>>().join(" ").replace('\n', " \n ")
}

fn of_header() -> Signatures {
    let text = header();
    let lines = text
        .lines()
        .filter(|line| !line.trim_start().starts_with('#') && !line.contains("STRAMASHLY_"));
    let code = lines.collect::<Vec<_>>().join(" ");
    let functions = code.split(';').filter_map(|statement| {
        let (before, after) = statement.split_once(" stramashly_")?;
        let (name, arguments) = after.split_once('(')?;
        let arguments = arguments.trim_end().strip_suffix(')')?;
        let mut kinds: Vec<String> = arguments.split(',').map(of_c).collect();
        kinds.push(of_c(before.split_whitespace().last()?));
        Some((format!("stramashly_{name}"), kinds))
    });
    functions.collect()
}

#[test]
fn the_header_declares_what_is_exported() {
    let exported = exported();
    assert!(exported.len() >= 17, "{exported:?}");
    assert_eq!(of_header(), exported);
}

#[test]
fn this_crate_declares_what_is_exported() {
    let mut exported = exported();
    // A table in one piece goes to the functions of two.
    for name in ["check", "fill", "report", "derive", "accepts"] {
        let one = exported.remove(&format!("stramashly_{name}"));
        assert!(one.is_some(), "{name}");
        assert!(exported.contains_key(&format!("stramashly_{name}2")));
    }
    assert_eq!(of_rust(), exported);
}

/// The modules of Python that declare functions of the library.
fn python() -> Vec<String> {
    let mut open = vec![repository()];
    let mut found = Vec::new();
    while let Some(folder) = open.pop() {
        for entry in fs::read_dir(folder)
            .expect("a folder")
            .map(|entry| entry.expect("an entry").path())
        {
            let name = entry
                .file_name()
                .and_then(|name| name.to_str())
                .unwrap_or("")
                .to_string();
            if entry.is_dir() && !["target", ".git", "crates"].contains(&name.as_str()) {
                open.push(entry);
            } else if name.ends_with(".py") {
                found.push(fs::read_to_string(entry).expect("a text"));
            }
        }
    }
    found.retain(|text| text.contains("argtypes"));
    found
}

/// A type of ctypes; it doesn't say whether what an address leads to changes.
fn of_python(written: &str, names: &BTreeMap<&str, &str>) -> String {
    let written = names
        .get(written)
        .unwrap_or(&written)
        .replace("ctypes.", "");
    match written
        .strip_prefix("POINTER(")
        .and_then(|inside| inside.strip_suffix(')'))
    {
        Some(inside) => format!("* {}", of_python(inside, names)),
        None => match written.as_str() {
            "c_char_p" => "* u8",
            "c_uint8" => "u8",
            "c_uint16" => "u16",
            "c_uint64" => "u64",
            "c_size_t" => "usize",
            "c_double" => "f64",
            other => panic!("type {other}"),
        }
        .to_string(),
    }
}

/// The functions that a line names.
fn named(line: &str) -> Vec<String> {
    let parts = line.split("stramashly_").skip(1);
    let ends = parts.map(|part| {
        part.split(|letter: char| !letter.is_alphanumeric() && letter != '_')
            .next()
    });
    ends.flatten()
        .map(|name| format!("stramashly_{name}"))
        .collect()
}

/// The types that a module of Python gives to functions.
fn of_module(text: &str) -> Vec<(String, Vec<String>)> {
    let values = text
        .lines()
        .filter_map(|line| line.trim().split_once(" = "));
    let names: BTreeMap<&str, &str> = values
        .filter(|(_, value)| value.contains("ctypes."))
        .collect();
    let mut functions = Vec::new();
    let mut found = Vec::new();
    for line in text.lines() {
        let last = named(line);
        if !last.is_empty() {
            functions = last;
        }
        if let Some((_, value)) = line.split_once(".argtypes = [") {
            let inside = value.split(']').next().unwrap_or(value).split(", ");
            let kinds: Vec<String> = inside.map(|kind| of_python(kind.trim(), &names)).collect();
            found.extend(
                functions
                    .iter()
                    .map(|function| (function.clone(), kinds.clone())),
            );
        }
    }
    found
}

#[test]
fn python_declares_what_is_exported() {
    let exported = exported();
    let mut declared = 0;
    for text in python() {
        for (function, kinds) in of_module(&text) {
            let of_c = exported[&function].iter();
            let of_c = of_c.map(|kind| kind.replace("*const", "*").replace("*mut", "*"));
            let of_c: Vec<String> = of_c.collect();
            assert_eq!(kinds, of_c[..of_c.len() - 1], "{function}");
            declared += 1;
        }
        let results = text.matches(".restype = ctypes.c_uint64").count();
        assert!(results > 0, "functions without a result");
    }
    assert!(
        declared >= 2,
        "{declared} declarations of Python were understood"
    );
}

/// `const NAME: type = number;` of the library's source.
fn constants() -> BTreeMap<String, u64> {
    let model = read("crates/model/src/lib.rt");
    let mut found = BTreeMap::new();
    for line in model.lines().chain(source().lines()) {
        let Some((_, rest)) = line
            .trim_start()
            .trim_start_matches("pub ")
            .split_once("const ")
        else {
            continue;
        };
        let Some((name, value)) = rest.split_once(" = ") else {
            continue;
        };
        let digits: String = value.chars().filter(char::is_ascii_digit).collect();
        let name = name.split(':').next().unwrap_or(name);
        found.insert(name.to_string(), digits.parse().expect("a number"));
    }
    found
}

/// The names that a constant may have outside: with what it counts, or what it
/// is a limit of.
fn outside(name: &str) -> Vec<String> {
    let single = name.strip_suffix('S').unwrap_or(name);
    let mut names: Vec<String> = [name, single]
        .iter()
        .flat_map(|name| ["", "_WORDS", "_NUMBERS"].map(|end| format!("{name}{end}")))
        .collect();
    names.extend([format!("STEP_{name}"), format!("MAX_{name}")]);
    names
}

/// Numbers by name, from lines such as `NAME = 1`.
fn numbers<'a>(lines: impl Iterator<Item = (&'a str, &'a str)>) -> BTreeMap<String, u64> {
    let known = lines.filter_map(|(name, value)| {
        let digits = value.trim_end_matches([';', ',']).trim();
        Some((name.trim().to_string(), digits.parse().ok()?))
    });
    known.collect()
}

/// Each constant that has a name outside, held to its number there.
fn held(names: &BTreeMap<String, u64>) -> BTreeSet<String> {
    let mut found = BTreeSet::new();
    for (name, value) in constants() {
        for outside in outside(&name)
            .iter()
            .filter(|outside| names.contains_key(*outside))
        {
            // The cycle buffer's limit and the code of a cycle have one name in C.
            let is_code = outside == "CYCLE" || outside == "ROW";
            assert!(names[outside] == value || is_code, "{outside}");
            if !is_code {
                found.insert(name.clone());
            }
        }
    }
    found
}

fn macros() -> BTreeMap<String, u64> {
    let header = read("include/stramashly.h");
    let lines = header
        .lines()
        .filter_map(|line| line.strip_prefix("#define STRAMASHLY_")?.split_once(' '));
    numbers(lines)
}

#[test]
fn limits_are_the_sources() {
    let all: BTreeSet<String> = constants().into_keys().collect();
    assert!(all.len() >= 12, "{all:?}");
    assert_eq!(held(&macros()), all);
    let library = read("rust/stramashly/src/lib.rs") + &read("rust/format/src/lib.rs");
    let lines = library.lines().filter_map(|line| {
        let (name, value) = line.strip_prefix("pub const ")?.split_once(": ")?;
        Some((name, value.split_once(" = ")?.1))
    });
    assert_eq!(held(&numbers(lines)), all);
    for text in python() {
        let lines = text.lines().filter_map(|line| line.split_once(" = "));
        assert!(!held(&numbers(lines)).is_empty());
    }
}

/// Types that are packed without a `match`, and what their codes are named, in the order in which they are packed.
const PACKED_WHOLE: [(&str, &[&str]); 5] = [
    ("Refusal", &["Refused"]),
    ("Accepted", &["Accepted", "NotAccepted"]),
    ("Written", &["Written"]),
    ("Sizes", &["Read"]),
    ("Counts", &["Opened"]),
];

/// What stands before the code is packed: the case of a `match`, or the type that is packed whole.
fn case_of(before: &str) -> String {
    let arm = before
        .trim_end()
        .strip_suffix("=>")
        .and_then(|arm| arm.rsplit("::").next());
    if let Some(arm) = arm {
        return arm
            .chars()
            .take_while(|letter| letter.is_alphabetic())
            .collect();
    }
    let Some((_, inside)) = before.rsplit_once("impl Packed for ") else {
        return String::new();
    };
    let (name, body) = inside.split_once(' ').expect("a body");
    let (_, packed) = body.split_once("fn pack(").expect("its function");
    PACKED_WHOLE
        .iter()
        .find(|(whole, _)| *whole == name)
        .and_then(|(_, cases)| cases.get(packed.matches(" pack(").count()))
        .map_or(String::new(), ToString::to_string)
}

/// The codes that the source packs, by the case that it packs them for.
fn packed() -> Vec<(String, u64)> {
    let text = joined(&source());
    let mut found = Vec::new();
    for (before, after) in text.match_indices("pack(").map(|(at, _)| text.split_at(at)) {
        let digits: String = after[5..]
            .trim_start()
            .chars()
            .take_while(char::is_ascii_digit)
            .collect();
        let Ok(code) = digits.parse() else { continue };
        found.push((case_of(before), code));
    }
    found
}

/// `RaceFree` as the header writes it.
fn shouted(name: &str) -> String {
    let letters = name.chars().enumerate().flat_map(|(place, letter)| {
        let gap = (place > 0 && letter.is_uppercase()).then_some('_');
        gap.into_iter().chain([letter.to_ascii_uppercase()])
    });
    letters.collect()
}

fn codes() -> BTreeMap<String, u64> {
    let text = read("include/stramashly.h");
    let inside = text
        .split_once("enum stramashly_code {")
        .expect("the codes")
        .1;
    let inside = inside.split_once('}').expect("their end").0;
    numbers(
        inside
            .lines()
            .filter_map(|line| line.trim().strip_prefix("STRAMASHLY_")?.split_once(" = ")),
    )
}

#[test]
fn codes_are_those_that_the_source_packs() {
    let codes = codes();
    let packed = packed();
    let all: BTreeSet<u64> = packed.iter().map(|(_, code)| *code).collect();
    assert_eq!(all, codes.values().copied().collect());
    let mut named = BTreeSet::new();
    for (case, code) in &packed {
        if let Some(number) = codes.get(&shouted(case)) {
            assert_eq!(number, code, "{case}");
            named.insert(case);
        }
    }
    assert!(named.len() >= 17, "{named:?}");
    for text in python() {
        let Some((names, _)) = text.lines().find_map(|line| line.split_once(" = range(")) else {
            continue;
        };
        for (number, name) in names.split(", ").enumerate() {
            assert_eq!(codes[name], number as u64, "{name}");
        }
    }
}
