//! How far the work is, on standard error: for whoever sees it there, and only
//! while nothing else is written to the same screen.

use std::io::{self, IsTerminal, Write};
use std::time::{Duration, Instant};

/// A bar, or a count where nobody knows how much there is.
pub struct Progress {
    is_shown: bool,
    what: &'static str,
    total: Option<usize>,
    done: usize,
    next: Instant,
    is_on_screen: bool,
}

impl Progress {
    /// Less than this needs no bar.
    const FIRST: Duration = Duration::from_secs(1);
    const PAUSE: Duration = Duration::from_millis(250);
    const WIDTH: usize = 30;

    /// `is_silent` says that nothing goes to standard output before the end.
    pub fn new(what: &'static str, total: Option<usize>, is_silent: bool) -> Progress {
        let is_free = is_silent || !io::stdout().is_terminal();
        Progress {
            is_shown: io::stderr().is_terminal() && is_free,
            what,
            total,
            done: 0,
            next: Instant::now() + Progress::FIRST,
            is_on_screen: false,
        }
    }

    pub fn count(&mut self) {
        self.done += 1;
        if self.is_shown && Instant::now() >= self.next {
            self.next = Instant::now() + Progress::PAUSE;
            self.is_on_screen = true;
            let _ = write!(io::stderr(), "\r{}", self.line());
        }
    }

    fn line(&self) -> String {
        let Progress { what, done, .. } = self;
        match self.total {
            Some(total) => {
                let part = (*done).min(total) * Progress::WIDTH / total.max(1);
                let (bar, rest) = ("#".repeat(part), ".".repeat(Progress::WIDTH - part));
                format!("[{bar}{rest}] {done} of {total} {what}")
            }
            None => format!("{done} {what}"),
        }
    }

    /// Takes the bar off the screen: before a message, and at the end.
    pub fn clear(&mut self) {
        if self.is_on_screen {
            self.is_on_screen = false;
            let _ = write!(io::stderr(), "\r\u{1b}[K");
        }
    }
}

#[cfg(test)]
mod tests {
    use super::*;

    #[test]
    fn the_bar_grows_with_the_work() {
        let mut progress = Progress::new("files", Some(60), false);
        assert_eq!(
            progress.line(),
            format!("[{}] 0 of 60 files", ".".repeat(30))
        );
        (0..20).for_each(|_| progress.count());
        let bar = format!("[{}{}] 20 of 60 files", "#".repeat(10), ".".repeat(20));
        assert_eq!(progress.line(), bar);
        (0..80).for_each(|_| progress.count());
        assert!(progress
            .line()
            .starts_with(&format!("[{}]", "#".repeat(30))));
        let mut unknown = Progress::new("tables", None, false);
        unknown.count();
        assert_eq!(unknown.line(), "1 tables");
    }
}
