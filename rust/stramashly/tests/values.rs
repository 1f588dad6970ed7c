//! The numbers by name are the header's, and go to the raw ones and back.

use stramashly::*;

const HEADER: &str = include_str!("../../../include/stramashly.h");

/// The header's enumerators with a prefix, without it: names and numbers.
fn enumerators(prefix: &str) -> Vec<(String, u16)> {
    let prefix = format!("  STRAMASHLY_{prefix}_");
    let lines = HEADER
        .lines()
        .filter_map(|line| line.strip_prefix(&*prefix));
    let pairs = lines.filter_map(|line| line.split_once(" = "));
    pairs
        .map(|(name, value)| {
            let end = value.find(|letter: char| !letter.is_ascii_digit());
            let number = value[..end.unwrap_or(value.len())].parse().unwrap();
            (name.to_string(), number)
        })
        .collect()
}

/// `PlainRead` as `PLAIN_READ`.
fn shouted(name: &str) -> String {
    let mut shouted = String::new();
    for letter in name.chars() {
        if letter.is_uppercase() && !shouted.is_empty() {
            shouted.push('_');
        }
        shouted.push(letter.to_ascii_uppercase());
    }
    shouted
}

#[test]
fn enumerations_are_the_headers() {
    macro_rules! same {
        ($name:ident: $raw:ty, $prefix:literal, $what:literal) => {
            let ours = $name::ALL.iter();
            let ours = ours.map(|value| (shouted(&format!("{value:?}")), <$raw>::from(*value)));
            let ours: Vec<(String, u16)> = ours.map(|(name, raw)| (name, u16::from(raw))).collect();
            assert_eq!(ours, enumerators($prefix));
            for value in $name::ALL {
                assert_eq!($name::try_from(<$raw>::from(*value)), Ok(*value));
            }
            let past = $name::ALL.len() as $raw;
            let unknown = UnknownCode {
                what: $what,
                number: past.into(),
            };
            assert_eq!($name::try_from(past), Err(unknown));
            assert_eq!(
                unknown.to_string(),
                format!("no {} has the number {past}", $what)
            );
            assert!($name::try_from(<$raw>::MAX).is_err());
        };
    }
    same!(Kind: u8, "KIND", "kind");
    same!(Order: u8, "ORDER", "order");
    same!(Scope: u8, "SCOPE", "scope");
    same!(Class: u8, "CLASS", "class");
    same!(AgentKind: u16, "AGENT", "kind of agent");
}

#[test]
fn sets_are_the_headers() {
    let flags = [
        ("NON_PRIVATE", Flags::NON_PRIVATE),
        ("MAKE_AVAILABLE", Flags::MAKE_AVAILABLE),
        ("MAKE_VISIBLE", Flags::MAKE_VISIBLE),
    ];
    let flags = flags.map(|(name, value)| (name.to_string(), u16::from(u8::from(value))));
    assert_eq!(flags.to_vec(), enumerators("FLAG"));
    let classes = [
        ("UNIFORM", Classes::UNIFORM),
        ("WORKGROUP", Classes::WORKGROUP),
        ("IMAGE", Classes::IMAGE),
        ("OUTPUT", Classes::OUTPUT),
    ];
    let classes = classes.map(|(name, value)| (name.to_string(), u16::from(u8::from(value))));
    assert_eq!(classes.to_vec(), enumerators("SEMANTICS"));
    for number in 0..=255 {
        assert_eq!(Flags::try_from(number).map(u8::from).is_ok(), number < 8);
        assert_eq!(Classes::try_from(number).map(u8::from).is_ok(), number < 16);
    }
    let mut both = Flags::NON_PRIVATE | Flags::MAKE_VISIBLE;
    assert!(both.has(Flags::MAKE_VISIBLE) && !both.has(Flags::MAKE_AVAILABLE));
    both |= Flags::MAKE_AVAILABLE;
    assert_eq!(u8::from(both), 7);
    for class in Class::ALL {
        assert_eq!(u8::from(Classes::from(*class)), 1 << u8::from(*class));
    }
}

#[test]
fn a_row_is_made_by_name() {
    let release = Row {
        kind: Kind::AtomicWrite.into(),
        order: Order::Release.into(),
        scope: Scope::Workgroup.into(),
        classes: Classes::UNIFORM.into(),
        flags: (Flags::NON_PRIVATE | Flags::MAKE_AVAILABLE).into(),
        class: Class::Uniform.into(),
        length: 4,
        start: 4,
        reference: 2,
        source: INITIAL,
        rank: 1,
        agent: 0,
    };
    // Row 1 of table P.
    let bytes = [3, 0, 2, 2, 1, 3, 0, 4, 0, 4, 0, 2, 255, 255, 0, 1];
    assert_eq!(release.bytes(), bytes);
    assert_eq!(Kind::try_from(release.kind), Ok(Kind::AtomicWrite));
    let mut writer = TableWriter::new(3);
    let table = writer
        .place([0, 0, 0, AgentKind::Shader.into()])
        .row(release)
        .write();
    assert!(table.is_ok());
}

#[test]
fn refusals_are_the_headers_and_have_sentences() {
    let ours = REFUSALS.map(|(number, name, _)| (name.to_string(), number));
    assert_eq!(ours.to_vec(), enumerators("REFUSAL"));
    for (number, name, sentence) in REFUSALS {
        let refusal = Refusal { number, row: 3 };
        assert_eq!(refusal.name(), Some(name));
        assert_eq!(refusal.sentence(), Some(sentence));
        assert!(!sentence.ends_with('.') && !sentence.is_empty());
    }
    let none = Refusal { number: 39, row: 0 };
    assert_eq!((none.name(), none.sentence()), (None, None));
}

#[test]
fn the_version_is_the_headers() {
    let line = format!("#define STRAMASHLY_VERSION \"{VERSION}\"");
    assert!(HEADER.lines().any(|other| other == line));
}

/// Python has the same names and sentences.
#[test]
fn python_says_the_same_of_refusals() {
    let python = include_str!("../../../python/stramashly/answers.py");
    for (number, name, sentence) in REFUSALS {
        let line = format!("    {number}: (\"{name}\", \"{sentence}\"),");
        assert!(python.lines().any(|other| other == line), "{line}");
    }
}
