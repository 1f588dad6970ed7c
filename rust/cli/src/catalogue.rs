//! The commands and options by name: what the parser takes, what shells complete,
//! and what tests hold the help and the man page to.

/// A command, what it does, and the options that it takes.
pub struct Entry {
    pub name: &'static str,
    pub words: &'static str,
    pub options: &'static [&'static str],
    /// What it takes besides files, if that is one of a few words.
    pub choices: &'static [&'static str],
}

const fn entry(name: &'static str, words: &'static str, options: &'static [&'static str]) -> Entry {
    Entry {
        name,
        words,
        options,
        choices: &[],
    }
}

/// Every command, in the order of the help.
pub const COMMANDS: [Entry; 14] = [
    entry(
        "check",
        "judge each table",
        &[
            "--hex",
            "--json",
            "--sarif",
            "--quiet",
            "--chains",
            "--jobs",
            "--then",
            "--only",
            "--files0-from",
        ],
    ),
    entry(
        "fill",
        "decide the blank sources of each table",
        &[
            "--hex",
            "--table",
            "--force",
            "--json",
            "--quiet",
            "--chains",
            "--jobs",
            "--then",
            "--only",
            "--files0-from",
        ],
    ),
    entry(
        "report",
        "count conflicting pairs of rows",
        &[
            "--hex",
            "--json",
            "--quiet",
            "--chains",
            "--jobs",
            "--then",
            "--only",
            "--files0-from",
        ],
    ),
    entry(
        "derive",
        "why one moment happens before another",
        &["--hex", "--words", "--json", "--quiet", "--then"],
    ),
    entry(
        "accepts",
        "whether a reason for that holds",
        &["--hex", "--json", "--quiet", "--then"],
    ),
    entry(
        "show",
        "each table in words, or as text",
        &[
            "--hex",
            "--text",
            "--json-lines",
            "--jobs",
            "--only",
            "--files0-from",
        ],
    ),
    entry(
        "make",
        "the table of a text or of JSON lines",
        &["--hex", "--force"],
    ),
    entry(
        "explain",
        "the answer in sentences, as an object or as a page",
        &[
            "--hex",
            "--html",
            "--json",
            "--all",
            "--chains",
            "--jobs",
            "--then",
            "--only",
            "--files0-from",
        ],
    ),
    entry(
        "draw",
        "the run as a picture",
        &["--hex", "--all", "--chains", "--then"],
    ),
    entry("edit", "the table with changes made", &["--hex", "--force"]),
    entry(
        "summary",
        "many runs summed up",
        &[
            "--csv",
            "--json",
            "--html",
            "--pages",
            "--baseline",
            "--against",
            "--files0-from",
            "--only",
            "--hex",
            "--chains",
            "--jobs",
        ],
    ),
    entry(
        "batch",
        "answer lines on standard input",
        &["--json", "--ids", "--raw", "--status", "--chains", "--jobs"],
    ),
    Entry {
        choices: &["bash", "zsh", "fish"],
        ..entry("completion", "completion for a shell", &[])
    },
    entry("help", "the help, or a command's lines", &[]),
];

/// Every option with what it does. The long name stands for a short one too.
pub const OPTIONS: [(&str, &str); 25] = [
    (
        "--hex",
        "files hold hex digits, and new tables are written so",
    ),
    ("--json", "an object for each answer"),
    ("--sarif", "one SARIF log of all that is found"),
    ("--quiet", "no answers, only the exit status"),
    (
        "--chains",
        "for a device with availability and visibility chains",
    ),
    ("--jobs", "work in so many threads"),
    ("--then", "a file of more rows for each table"),
    ("--only", "of directories, only files that match a pattern"),
    ("--files0-from", "a file of names, a zero byte after each"),
    ("--csv", "a line of cells for each run"),
    ("--pages", "a folder for the pages of runs"),
    ("--baseline", "findings that are known"),
    ("--against", "an earlier summary to compare with"),
    ("--force", "write bytes to a terminal too"),
    ("--ids", "a name and a tab before each line and each answer"),
    ("--raw", "tables as bytes, one after the other"),
    ("--status", "the worst answer as exit status"),
    ("--table", "write the filled table"),
    ("--words", "in sentences"),
    ("--text", "as text that can be read again"),
    ("--json-lines", "as JSON, an object a line"),
    ("--html", "as a page"),
    ("--all", "every row, pair and change"),
    ("--help", "print the help"),
    ("--version", "print the version"),
];

/// Short names, each with the long one.
pub const SHORT: [(&str, &str); 4] = [
    ("-q", "--quiet"),
    ("-j", "--jobs"),
    ("-h", "--help"),
    ("-V", "--version"),
];

/// What an option does.
pub fn option_words(name: &str) -> &'static str {
    let entry = OPTIONS.iter().find(|(option, _)| *option == name);
    entry.map_or("", |(_, words)| words)
}

/// An option's short name, if it has one.
pub fn short(name: &str) -> Option<&'static str> {
    let entry = SHORT.iter().find(|(_, long)| *long == name);
    entry.map(|(short, _)| *short)
}

/// The long name of an option that is given by either.
pub fn long(name: &str) -> Option<&'static str> {
    let long = SHORT.iter().find(|(short, _)| *short == name);
    let name = long.map_or(name, |(_, long)| long);
    let mut names = OPTIONS.iter().map(|(option, _)| *option);
    names.find(|option| *option == name)
}

#[cfg(test)]
mod tests {
    use super::*;
    use crate::arguments::parse;
    use crate::help;
    use std::collections::BTreeSet;
    use std::ffi::OsString;

    /// The words in a text that begin with a dash.
    fn options_of(text: &str) -> BTreeSet<String> {
        let is_part =
            |letter: char| letter.is_ascii_lowercase() || letter.is_ascii_digit() || letter == '-';
        let words = text.split(|letter: char| !is_part(letter));
        let words = words.filter(|word| word.starts_with("--") && word.len() > 2);
        words.map(str::to_string).collect()
    }

    fn options() -> BTreeSet<String> {
        OPTIONS.iter().map(|(name, _)| name.to_string()).collect()
    }

    #[test]
    fn the_help_has_these_commands_and_options() {
        // The help has the short name of --jobs alone.
        let mut in_help = options_of(help::TEXT);
        in_help.insert("--jobs".to_string());
        assert_eq!(in_help, options());
        let usage = help::TEXT.split("\n\n").nth(1).unwrap();
        let lines = usage
            .lines()
            .filter_map(|line| line.strip_prefix("  stramashly "));
        let commands: BTreeSet<&str> = lines.filter_map(|line| line.split(' ').next()).collect();
        let mut expected: BTreeSet<&str> = COMMANDS.iter().map(|entry| entry.name).collect();
        expected.insert("--help");
        assert_eq!(commands, expected);
        for entry in COMMANDS {
            assert!(help::of(entry.name).is_some(), "{}", entry.name);
        }
    }

    /// Each option is known to the parser, with its command and with no other.
    #[test]
    fn commands_take_their_options_alone() {
        for entry in COMMANDS {
            for (option, _) in OPTIONS {
                if matches!(option, "--help" | "--version") {
                    continue;
                }
                // What goes with it.
                let rest = match (entry.name, option) {
                    ("derive", _) => "a 1 2",
                    ("accepts", _) => "a 1 2 3",
                    ("edit", _) => "a row=2",
                    ("completion", _) => "bash",
                    ("batch" | "help", _) => "",
                    ("fill", "--force") => "--table a",
                    ("summary", "--pages") => "--html a",
                    _ => "a",
                };
                let word = option.replace("--jobs", "--jobs=2");
                let word = word.replace("--then", "--then rows");
                let word = word.replace("--only", "--only=*.table");
                let word = match option {
                    "--files0-from" | "--pages" | "--baseline" | "--against" => format!("{word} x"),
                    _ => word,
                };
                let line = format!("{} {word} {rest}", entry.name);
                let words = line.split_whitespace();
                let words =
                    words.map(|word| OsString::from(word.replace("row=2", "row 2 flags 3")));
                let takes = parse(words).is_ok();
                let listed = entry.options.contains(&option);
                // More threads than work do no harm, nor does an option of the help.
                let is_idle = option == "--jobs" || entry.name == "help";
                assert!(takes == listed || is_idle && takes, "{line}");
            }
        }
    }

    #[test]
    fn the_man_page_has_these_commands_and_options() {
        let page = include_str!("../../../docs/stramashly.1").replace("\\-", "-");
        assert_eq!(options_of(&page), options());
        let (_, usage) = help::TEXT.split_once("usage:\n").unwrap();
        let (usage, rest) = usage.split_once("\n\n").unwrap();
        // The synopsis is the help's, word for word.
        for line in usage
            .lines()
            .filter(|line| line.starts_with("  stramashly"))
        {
            let synopsis = line.trim().split("  ").next().unwrap();
            assert!(page.contains(&format!("\n{synopsis}\n")), "{synopsis}");
        }
        // So are the answers and the exit statuses.
        let (_, answers) = rest
            .split_once("before it if there are several:\n")
            .unwrap();
        let answers = answers.split("\n\n").next().unwrap();
        let answers = answers.lines().filter(|line| !line.starts_with("      "));
        for answer in answers {
            let answer = answer.trim().split("  ").next().unwrap();
            assert!(page.contains(answer), "{answer}");
        }
        let version = concat!("\"stramashly ", env!("CARGO_PKG_VERSION"), "\"");
        assert!(page.contains(version), "{version}");
        assert!(page.is_ascii());
    }
}
