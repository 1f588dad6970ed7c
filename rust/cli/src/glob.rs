//! Patterns of `--only`: `*` and `?` for letters other than `/`, `**` for all,
//! `[a-z]` and `[!a-z]` for one of some.

/// A pattern. One without `/` is held against a file's name, another against its
/// path below the directory.
#[derive(Clone, Debug, PartialEq, Eq)]
pub struct Glob {
    pattern: Vec<u8>,
}

impl Glob {
    pub fn new(pattern: &[u8]) -> Result<Glob, String> {
        let text = String::from_utf8_lossy(pattern);
        if pattern.is_empty() {
            return Err("--only takes a pattern like '*.table'".to_string());
        }
        let mut rest = pattern;
        while let Some((letter, more)) = rest.split_first() {
            rest = more;
            if *letter == b'[' {
                let set = Set::of(rest).ok_or(format!("{text:?} has a [ without its ]"))?;
                rest = set.rest;
            }
        }
        Ok(Glob {
            pattern: pattern.to_vec(),
        })
    }

    pub fn matches(&self, path: &[u8]) -> bool {
        if self.pattern.contains(&b'/') {
            return matches(&self.pattern, path);
        }
        let name = path.rsplit(|letter| *letter == b'/').next();
        matches(&self.pattern, name.unwrap_or(path))
    }
}

/// One letter of some, and the pattern after it.
struct Set<'a> {
    is_other: bool,
    members: &'a [u8],
    rest: &'a [u8],
}

impl Set<'_> {
    /// What follows a `[`. A `]` that comes first is one of the letters.
    fn of(pattern: &[u8]) -> Option<Set<'_>> {
        let is_other = matches!(pattern.first(), Some(b'!' | b'^'));
        let inside = &pattern[usize::from(is_other)..];
        let end = inside.iter().skip(1).position(|letter| *letter == b']')? + 1;
        Some(Set {
            is_other,
            members: &inside[..end],
            rest: &inside[end + 1..],
        })
    }

    fn has(&self, letter: u8) -> bool {
        let mut members = self.members;
        let mut is_in = false;
        while let [first, rest @ ..] = members {
            members = rest;
            is_in |= match rest {
                [b'-', last, more @ ..] => {
                    members = more;
                    (*first..=*last).contains(&letter)
                }
                _ => *first == letter,
            };
        }
        is_in != self.is_other && letter != b'/'
    }
}

fn matches(pattern: &[u8], name: &[u8]) -> bool {
    match pattern {
        [] => name.is_empty(),
        [b'*', b'*', rest @ ..] => {
            // `**/` may stand for nothing at all.
            let bare = rest.strip_prefix(b"/");
            bare.is_some_and(|bare| matches(bare, name))
                || (0..=name.len()).any(|at| matches(rest, &name[at..]))
        }
        [b'*', rest @ ..] => {
            let most = name.iter().position(|letter| *letter == b'/');
            (0..=most.unwrap_or(name.len())).any(|at| matches(rest, &name[at..]))
        }
        [first, rest @ ..] => {
            let Some((letter, name)) = name.split_first() else {
                return false;
            };
            match first {
                b'?' => *letter != b'/' && matches(rest, name),
                b'[' => match Set::of(rest) {
                    Some(set) => set.has(*letter) && matches(set.rest, name),
                    None => false,
                },
                _ => first == letter && matches(rest, name),
            }
        }
    }
}

#[cfg(test)]
mod tests {
    use super::*;

    #[test]
    fn names_and_paths_match() {
        for (pattern, path, expected) in [
            ("*.table", "a.table", true),
            ("*.table", "below/a.table", true),
            ("*.table", "a.tables", false),
            ("run-?.table", "run-7.table", true),
            ("run-?.table", "run-12.table", false),
            ("run-[0-4].*", "x/run-3.hex", true),
            ("run-[!0-4].*", "run-3.hex", false),
            ("[]x]", "]", true),
            ("week*/*.table", "week12/a.table", true),
            ("week*/*.table", "week12/b/a.table", false),
            ("week*/**.table", "week12/b/a.table", true),
            ("**/a.table", "a.table", true),
            ("**/a.table", "b/c/a.table", true),
            ("*", ".hidden", true),
            ("", "x", false),
        ] {
            let glob = Glob::new(pattern.as_bytes());
            let matches = glob.is_ok_and(|glob| glob.matches(path.as_bytes()));
            assert_eq!(matches, expected, "{pattern} {path}");
        }
    }

    #[test]
    fn bad_patterns_are_told() {
        assert!(Glob::new(b"").is_err());
        assert!(Glob::new(b"a[b").unwrap_err().contains("without its ]"));
        assert!(Glob::new(b"[]").is_err());
        assert!(Glob::new(b"[a]]").is_ok());
    }
}
