//! Whether answers are coloured: where someone looks at them.

use std::env;
use std::io::{self, IsTerminal};

/// Whether standard output is looked at and colour isn't declined.
pub fn is_wanted() -> bool {
    let is_set = |name: &str| env::var_os(name).is_some_and(|value| !value.is_empty());
    let is_dumb = env::var_os("TERM").is_some_and(|value| value == "dumb");
    decided(io::stdout().is_terminal(), is_set("NO_COLOR"), is_dumb)
}

fn decided(is_terminal: bool, is_declined: bool, is_dumb: bool) -> bool {
    is_terminal && !is_declined && !is_dumb
}

#[cfg(test)]
mod tests {
    use super::*;

    #[test]
    fn colour_is_for_those_who_see_it() {
        assert!(decided(true, false, false));
        for (is_terminal, is_declined, is_dumb) in [
            (false, false, false),
            (true, true, false),
            (true, false, true),
        ] {
            assert!(!decided(is_terminal, is_declined, is_dumb));
        }
    }
}
