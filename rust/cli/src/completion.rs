//! `completion SHELL`: a script that completes commands, options and files.

use crate::catalogue::{option_words, short, Entry, COMMANDS};

/// A shell.
#[derive(Clone, Copy, Debug, PartialEq, Eq)]
pub enum Shell {
    Bash,
    Zsh,
    Fish,
}

impl Shell {
    pub fn named(name: &str) -> Option<Shell> {
        match name {
            "bash" => Some(Shell::Bash),
            "zsh" => Some(Shell::Zsh),
            "fish" => Some(Shell::Fish),
            _ => None,
        }
    }
}

pub fn script(shell: Shell) -> String {
    match shell {
        Shell::Bash => bash(),
        Shell::Zsh => zsh(),
        Shell::Fish => fish(),
    }
}

fn commands() -> String {
    COMMANDS.map(|entry| entry.name).join(" ")
}

/// An entry's options with their short names, as words.
fn option_list(entry: &Entry) -> String {
    let names = entry.options.iter();
    let names = names.flat_map(|name| [Some(*name), short(name)]);
    names.flatten().collect::<Vec<_>>().join(" ")
}

/// What a command takes in the place of a file.
fn choices(entry: &Entry) -> String {
    match entry.name {
        "help" => commands(),
        _ => entry.choices.join(" "),
    }
}

fn bash() -> String {
    let cases = COMMANDS.iter().map(|entry| {
        let (name, options) = (entry.name, option_list(entry));
        let choices = choices(entry);
        format!("    {name}) options=\"{options}\" choices=\"{choices}\" ;;\n")
    });
    let cases: String = cases.collect();
    let commands = commands();
    format!(
        "\
# Completion of stramashly for bash: source it, or put it where bash-completion looks.
_stramashly() {{
  local current=${{COMP_WORDS[COMP_CWORD]}} previous=${{COMP_WORDS[COMP_CWORD-1]}}
  local command= options= choices= word skip=
  for word in \"${{COMP_WORDS[@]:1:COMP_CWORD-1}}\"; do
    if [[ -n $skip ]]; then skip=; continue; fi
    case $word in
    -j | --jobs | --then) skip=1 ;;
    -*) ;;
    *) command=$word; break ;;
    esac
  done
  COMPREPLY=()
  if [[ $previous == -j || $previous == --jobs || $previous == --then ]]; then return; fi
  case $command in
    '') options=\"--help --version\" choices=\"{commands}\" ;;
{cases}  esac
  if [[ $current == -* ]]; then
    COMPREPLY=($(compgen -W \"$options\" -- \"$current\"))
  elif [[ -n $choices ]]; then
    COMPREPLY=($(compgen -W \"$choices\" -- \"$current\"))
  fi
}}
complete -o bashdefault -o default -F _stramashly stramashly
"
    )
}

/// A text between single quotes, in which a shell takes all else as it is.
fn quoted(text: &str) -> String {
    format!("'{}'", text.replace('\'', "'\\''"))
}

fn zsh() -> String {
    let described = COMMANDS.map(|entry| quoted(&format!("{}:{}", entry.name, entry.words)));
    let cases = COMMANDS.iter().map(|entry| {
        let options = entry.options.iter().map(|name| {
            let words = option_words(name);
            let value = match *name {
                "--jobs" => ":number:",
                "--then" => ":rows:_files",
                _ => "",
            };
            match short(name) {
                Some(short) => format!(
                    " {{{short},{name}}}{}",
                    quoted(&format!("[{words}]{value}"))
                ),
                None => format!(" {}", quoted(&format!("{name}[{words}]{value}"))),
            }
        });
        let options: String = options.collect();
        let rest = match choices(entry) {
            choices if choices.is_empty() => "*:file:_files".to_string(),
            choices => format!("1:word:({choices})"),
        };
        format!(
            "      {}) _arguments{options} {} ;;\n",
            entry.name,
            quoted(&rest)
        )
    });
    let cases: String = cases.collect();
    let described = described.join("\n    ");
    format!(
        "\
#compdef stramashly
# Completion of stramashly for zsh: put it as _stramashly into a folder of $fpath.
_stramashly() {{
  local -a commands
  commands=(
    {described}
  )
  _arguments -C '--help[print the help]' '--version[print the version]' '1: :->command' '*:: :->rest'
  case $state in
  command) _describe command commands ;;
  rest)
    case $line[1] in
{cases}    esac
    ;;
  esac
}}
_stramashly \"$@\"
"
    )
}

fn fish() -> String {
    let mut script =
        "# Completion of stramashly for fish: put it into ~/.config/fish/completions.\n"
            .to_string();
    let begin = "complete -c stramashly -n __fish_use_subcommand";
    for (long, words) in [("help", "print the help"), ("version", "print the version")] {
        script += &format!("{begin} -l {long} -d {}\n", quoted(words));
    }
    for entry in &COMMANDS {
        let words = quoted(entry.words);
        script += &format!("{begin} -f -a {} -d {words}\n", entry.name);
    }
    for entry in &COMMANDS {
        let seen = format!(
            "complete -c stramashly -n '__fish_seen_subcommand_from {}'",
            entry.name
        );
        for name in entry.options {
            let long = name.trim_start_matches('-');
            let short = short(name).map(|short| format!(" -s {}", short.trim_start_matches('-')));
            let takes = match *name {
                "--jobs" => " -x",
                "--then" => " -r",
                _ => "",
            };
            let words = quoted(option_words(name));
            let short = short.unwrap_or_default();
            script += &format!("{seen}{short} -l {long}{takes} -d {words}\n");
        }
        let choices = choices(entry);
        if !choices.is_empty() {
            script += &format!("{seen} -f -a {}\n", quoted(&choices));
        }
    }
    script
}

#[cfg(test)]
mod tests {
    use super::*;
    use crate::catalogue::OPTIONS;

    #[test]
    fn every_command_and_option_is_completed() {
        for shell in [Shell::Bash, Shell::Zsh, Shell::Fish] {
            let script = script(shell);
            for entry in &COMMANDS {
                assert!(script.contains(entry.name), "{shell:?} {}", entry.name);
                for choice in entry.choices {
                    assert!(script.contains(choice), "{shell:?} {choice}");
                }
            }
            for (option, _) in OPTIONS {
                let name = match shell {
                    Shell::Fish => format!("-l {}", option.trim_start_matches('-')),
                    _ => option.to_string(),
                };
                assert!(script.contains(&name), "{shell:?} {option}");
            }
        }
    }
}
