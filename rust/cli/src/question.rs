//! What is asked of a table, from the words of a command or of a batch line.

use stramashly::OwnedDerivation;

/// The commands that have one line for an answer.
#[derive(Clone, Copy, Debug, PartialEq, Eq)]
pub enum Kind {
    Check,
    Fill,
    Report,
    Derive,
    Accepts,
    Rows,
    Write,
    /// A row of a table in two pieces.
    Row,
}

/// A command with all that it needs besides a table.
#[derive(Clone, Debug, PartialEq, Eq)]
pub enum Question {
    Check,
    Fill,
    Report,
    Derive {
        first: u16,
        second: u16,
    },
    Accepts {
        first: u16,
        second: u16,
        claim: Claim,
    },
    Rows,
    Write(Writing),
    Row {
        row: u16,
    },
}

/// Values to make a table of, and how many bytes there are for it: four
/// numbers for each place, two for each dependency.
#[derive(Clone, Debug, PartialEq, Eq)]
pub struct Writing {
    pub version: u8,
    pub room: u16,
    pub places: Vec<u16>,
    pub rows: Vec<u8>,
    pub dependencies: Vec<u16>,
}

/// A derivation as somebody wrote it.
pub type Claim = OwnedDerivation;

/// The word, or a class set and steps, of which there may be none.
fn claim(words: &[&str]) -> Result<Claim, String> {
    match words {
        [] => Err("accepts takes a derivation after the moments".to_string()),
        ["program-order"] => Ok(Claim::ProgramOrder),
        ["program-order", ..] => Err("program-order has no steps beside it".to_string()),
        [classes, steps @ ..] => Ok(Claim::Chain {
            classes: number(classes, u8::MAX)?,
            steps: numbers(steps)?,
        }),
    }
}

impl Kind {
    /// What there is to choose from in a batch line.
    pub const LINES: &str = "check, fill, report, derive, accepts, rows and write, \
        and of two pieces the first five with a 2, and row2";

    pub fn named(name: &[u8]) -> Option<Kind> {
        Some(match name {
            b"check" => Kind::Check,
            b"fill" => Kind::Fill,
            b"report" => Kind::Report,
            b"derive" => Kind::Derive,
            b"accepts" => Kind::Accepts,
            b"rows" => Kind::Rows,
            b"write" => Kind::Write,
            _ => return None,
        })
    }

    /// Whether files can be asked it, and not only the lines of a batch.
    pub fn takes_files(self) -> bool {
        !matches!(self, Kind::Rows | Kind::Write | Kind::Row)
    }

    /// The command of a batch line, and whether its table is in two pieces.
    pub fn of_line(name: &[u8]) -> Option<(Kind, bool)> {
        let one = name.strip_suffix(b"2");
        match one {
            Some(b"row") => Some((Kind::Row, true)),
            Some(one) => {
                let kind = Kind::named(one).filter(|kind| kind.takes_files());
                kind.map(|kind| (kind, true))
            }
            None => Kind::named(name).map(|kind| (kind, false)),
        }
    }

    /// Whether there are words after the table.
    pub fn takes_words(self) -> bool {
        matches!(self, Kind::Derive | Kind::Accepts | Kind::Row)
    }

    /// The question, from the words after the table.
    pub fn question(self, words: &[&str]) -> Result<Question, String> {
        match self {
            Kind::Check | Kind::Fill | Kind::Report if !words.is_empty() => {
                Err("no words come after the table".to_string())
            }
            Kind::Check => Ok(Question::Check),
            Kind::Fill => Ok(Question::Fill),
            Kind::Report => Ok(Question::Report),
            Kind::Derive => match words {
                [first, second] => Ok(Question::Derive {
                    first: moment(first)?,
                    second: moment(second)?,
                }),
                _ => Err("derive takes one table and two moments".to_string()),
            },
            Kind::Accepts => match words {
                [first, second, rest @ ..] => Ok(Question::Accepts {
                    first: moment(first)?,
                    second: moment(second)?,
                    claim: claim(rest)?,
                }),
                _ => Err("accepts takes one table, two moments and a derivation".to_string()),
            },
            Kind::Rows => Ok(Question::Rows),
            Kind::Write => Err("write takes no table".to_string()),
            Kind::Row => match words {
                [row] => Ok(Question::Row {
                    row: number(row, u16::MAX)?,
                }),
                _ => Err("row2 takes one row's number".to_string()),
            },
        }
    }
}

/// A moment as its number, or as its row and `before`, `at` or `after`.
fn moment(word: &str) -> Result<u16, String> {
    let Some((row, place)) = word.split_once('.') else {
        let forms = "a moment is one, or 1.before, 1.at, 1.after";
        return number(word, u16::MAX).map_err(|reason| format!("{reason}; {forms}"));
    };
    let places = ["before", "at", "after"];
    let place = places.iter().position(|other| *other == place);
    let place =
        place.ok_or_else(|| format!("{word:?} is no moment like 1.before, 1.at or 1.after"))?;
    let row: u16 = number(row, u16::MAX)?;
    let moment = u32::from(row) * 3 + place as u32;
    u16::try_from(moment).map_err(|_| format!("{word:?} is a moment of no row"))
}

/// Digits only, and so few that none can be cut off unseen.
pub fn is_number(word: &[u8]) -> bool {
    (1..=5).contains(&word.len()) && word.iter().all(u8::is_ascii_digit)
}

/// A word as a number up to the most that its type holds.
pub fn number<T: TryFrom<u32> + Into<u32> + Copy>(word: &str, most: T) -> Result<T, String> {
    let value = if is_number(word.as_bytes()) {
        word.parse::<u32>().ok()
    } else {
        None
    };
    let value = value.and_then(|value| T::try_from(value).ok());
    let most: u32 = most.into();
    value.ok_or_else(|| format!("{word:?} is no number from 0 to {most}"))
}

fn numbers(words: &[&str]) -> Result<Vec<u16>, String> {
    words.iter().map(|word| number(word, u16::MAX)).collect()
}

#[cfg(test)]
mod tests {
    use super::*;

    fn asked(kind: Kind, line: &str) -> Result<Question, String> {
        let words: Vec<&str> = line.split(' ').filter(|word| !word.is_empty()).collect();
        kind.question(&words)
    }

    fn accepts(first: u16, second: u16, claim: Claim) -> Result<Question, String> {
        Ok(Question::Accepts {
            first,
            second,
            claim,
        })
    }

    #[test]
    fn moments_and_derivations_are_read() {
        let derive = Question::Derive {
            first: 0,
            second: 65535,
        };
        assert_eq!(asked(Kind::Derive, "0 65535"), Ok(derive));
        let named = Question::Derive {
            first: 3,
            second: 8,
        };
        assert_eq!(asked(Kind::Derive, "1.before 2.after"), Ok(named));
        assert_eq!(
            asked(Kind::Accepts, "0.at 1.at program-order"),
            accepts(1, 4, Claim::ProgramOrder)
        );
        assert_eq!(
            asked(Kind::Accepts, "1 4 program-order"),
            accepts(1, 4, Claim::ProgramOrder)
        );
        for (line, classes, steps) in [
            ("3 8 1 1028 519 1544", 1, vec![1028, 519, 1544]),
            ("3 8 255", 255, vec![]),
            ("3 8 00016 0", 16, vec![0]),
        ] {
            let chain = Claim::Chain { classes, steps };
            assert_eq!(asked(Kind::Accepts, line), accepts(3, 8, chain), "{line}");
        }
    }

    #[test]
    fn bad_words_are_told() {
        for (kind, line, part) in [
            (Kind::Derive, "", "two moments"),
            (Kind::Derive, "1", "two moments"),
            (Kind::Derive, "1 2 3", "two moments"),
            (Kind::Derive, "1 65536", "\"65536\""),
            (Kind::Derive, "x 2", "\"x\""),
            (Kind::Derive, "+1 2", "\"+1\""),
            (Kind::Derive, "1.during 2", "1.before"),
            (Kind::Derive, ".at 2", "\"\""),
            (Kind::Derive, "1 21845.at", "no row"),
            (Kind::Derive, "1 000002", "\"000002\""),
            (Kind::Accepts, "1", "two moments"),
            (Kind::Accepts, "1 2", "a derivation"),
            (Kind::Accepts, "1 2 256 3", "0 to 255"),
            (Kind::Accepts, "1 2 3 65536", "0 to 65535"),
            (Kind::Accepts, "1 2 program-order 3", "no steps"),
            (Kind::Accepts, "1 2 3 program-order", "program-order"),
        ] {
            let reason = asked(kind, line).expect_err(line);
            assert!(reason.contains(part), "{line}: {reason}");
        }
    }
}
