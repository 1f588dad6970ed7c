//! What an answer says, its numbers aside: its word, its exit status and its
//! colour.

use crate::Status;

/// An answer's verdict, in the order in which counts of them are told.
#[derive(Clone, Copy, Debug, PartialEq, Eq, PartialOrd, Ord)]
pub enum Verdict {
    RaceFree,
    Filled,
    /// Whether pairs race.
    Report(bool),
    Race,
    Cycle,
    Overwritten,
    /// No filling is consistent.
    NoFilling,
    Refused,
    ProgramOrder,
    Chain,
    NotBefore,
    Accepted,
    NotAccepted,
    Row,
    NoRow,
    Rows,
    Written,
    /// An answer that the library has and this program doesn't know.
    Unknown,
}

impl Verdict {
    /// The first word of the answer, and the verdict of its object.
    pub fn word(self) -> &'static str {
        match self {
            Verdict::RaceFree => "race-free",
            Verdict::Filled => "filled",
            Verdict::Report(_) => "report",
            Verdict::Race => "race",
            Verdict::Cycle => "cycle",
            Verdict::Overwritten => "overwritten",
            Verdict::NoFilling | Verdict::NoRow => "none",
            Verdict::Refused => "refused",
            Verdict::ProgramOrder => "program-order",
            Verdict::Chain => "chain",
            Verdict::NotBefore => "not-before",
            Verdict::Accepted => "accepted",
            Verdict::NotAccepted => "not-accepted",
            Verdict::Row => "row",
            Verdict::Rows => "rows",
            Verdict::Written => "written",
            Verdict::Unknown => "unknown",
        }
    }

    pub fn status(self) -> Status {
        match self {
            Verdict::Report(true) | Verdict::Race | Verdict::NoRow => Status::No,
            Verdict::NotBefore | Verdict::NotAccepted => Status::No,
            Verdict::Cycle | Verdict::Overwritten | Verdict::NoFilling => Status::Inconsistent,
            Verdict::Refused => Status::Refused,
            Verdict::Unknown => Status::Trouble,
            _ => Status::Fine,
        }
    }

    /// Green for what is fine, red for what isn't, yellow for refusals, magenta
    /// for impossible runs.
    fn colour(self) -> Option<u8> {
        match self.status() {
            _ if matches!(self, Verdict::Report(_)) => None,
            Status::Fine => Some(32),
            Status::No => Some(31),
            Status::Refused => Some(33),
            Status::Inconsistent => Some(35),
            Status::Trouble => None,
        }
    }

    /// An answer with its first word in colour.
    pub fn painted(self, text: &str) -> String {
        match (self.colour(), text.strip_prefix(self.word())) {
            (Some(colour), Some(rest)) => format!("\x1b[{colour}m{}\x1b[0m{rest}", self.word()),
            _ => text.to_string(),
        }
    }
}

#[cfg(test)]
mod tests {
    use super::*;

    #[test]
    fn only_the_first_word_is_painted() {
        for (verdict, text, painted) in [
            (Verdict::Race, "race 0 4 0\n", "\x1b[31mrace\x1b[0m 0 4 0\n"),
            (
                Verdict::RaceFree,
                "race-free\n",
                "\x1b[32mrace-free\x1b[0m\n",
            ),
            (
                Verdict::Refused,
                "refused 1 0\n",
                "\x1b[33mrefused\x1b[0m 1 0\n",
            ),
            (Verdict::NoFilling, "none\n", "\x1b[35mnone\x1b[0m\n"),
            (
                Verdict::Report(true),
                "report 1 0 0 1 1.0\n",
                "report 1 0 0 1 1.0\n",
            ),
            (Verdict::Chain, "", ""),
        ] {
            assert_eq!(verdict.painted(text), painted);
        }
    }
}
