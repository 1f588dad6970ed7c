//! How many files had which answer.

use crate::verdict::Verdict;
use std::collections::BTreeMap;

/// Files by their verdicts.
#[derive(Default)]
pub struct Summary {
    counts: BTreeMap<Verdict, usize>,
    /// Those that can't be read.
    unread: usize,
}

impl Summary {
    /// Counts an answer; none of a file that can't be read.
    pub fn count(&mut self, verdict: Option<Verdict>) {
        match verdict {
            // Whether pairs race makes no difference here.
            Some(Verdict::Report(_)) => *self.counts.entry(Verdict::Report(true)).or_default() += 1,
            Some(verdict) => *self.counts.entry(verdict).or_default() += 1,
            None => self.unread += 1,
        }
    }

    /// `3 files: 2 race-free, 1 race`.
    pub fn text(&self) -> String {
        let all = self.counts.values().sum::<usize>() + self.unread;
        let counts = self.counts.iter();
        let counts = counts.map(|(verdict, count)| format!("{count} {}", verdict.word()));
        let unread = format!("{} can't be read", self.unread);
        let unread = (self.unread > 0).then_some(unread);
        let counts: Vec<String> = counts.chain(unread).collect();
        let files = if all == 1 { "file" } else { "files" };
        format!("{all} {files}: {}", counts.join(", "))
    }
}

#[cfg(test)]
mod tests {
    use super::*;

    #[test]
    fn answers_are_counted_by_their_words() {
        let mut summary = Summary::default();
        for verdict in [
            Some(Verdict::Race),
            Some(Verdict::RaceFree),
            None,
            Some(Verdict::RaceFree),
            Some(Verdict::Refused),
        ] {
            summary.count(verdict);
        }
        assert_eq!(
            summary.text(),
            "5 files: 2 race-free, 1 race, 1 refused, 1 can't be read"
        );
        let mut one = Summary::default();
        one.count(Some(Verdict::RaceFree));
        assert_eq!(one.text(), "1 file: 1 race-free");
    }
}
