//! What `--help` prints, and what is told of one command or one refusal.

use crate::catalogue::{option_words, short, COMMANDS};
use stramashly::Refusal;
use words::is_of_a_row;

/// What is told of a command, or of a refusal by its number, if there is one of
/// that name.
pub fn of(name: &str) -> Option<String> {
    command(name).or_else(|| refusal(name.parse().ok()?))
}

/// A command's lines and its options.
fn command(name: &str) -> Option<String> {
    let mut text = usage(name)?;
    let entry = COMMANDS.iter().find(|entry| entry.name == name)?;
    if !entry.options.is_empty() {
        text += "\noptions:\n";
    }
    for option in entry.options {
        let both = match short(option) {
            Some(short) => format!("{short}, {option}"),
            None => option.to_string(),
        };
        text += &format!("  {both:<34}  {}\n", option_words(option));
    }
    Some(text)
}

/// What a refusal says, and where the rule stands.
fn refusal(number: u16) -> Option<String> {
    let refusal = Refusal { number, row: 0 };
    let (name, sentence) = (refusal.name()?, refusal.sentence()?);
    let row = match is_of_a_row(number) {
        true => "The second number of the answer is the row.",
        false => "It is of no row: the second number of the answer is 0.",
    };
    Some(format!(
        "refused {number}, {name}: {sentence}.\n{row}\n`stramashly show FILE` tells what the table \
         holds there and what it should hold; docs/FORMAT.md\nhas every rule and the order in which \
         they are tested.\n"
    ))
}

/// The lines of a command, if there is one of that name.
fn usage(name: &str) -> Option<String> {
    let (_, usage) = TEXT.split_once("usage:\n")?;
    let (usage, _) = usage.split_once("\n\n")?;
    let begin = format!("  stramashly {name} ");
    let mut text = String::new();
    let mut is_ours = false;
    for line in usage.lines() {
        // A command's further lines are further in.
        if !line.starts_with("      ") {
            is_ours = line.starts_with(&begin);
        }
        if is_ours {
            text += line;
            text.push('\n');
        }
    }
    (!text.is_empty()).then_some(text)
}

pub const TEXT: &str = "\
stramashly: a race checker for recorded runs of a graphics device

usage:
  stramashly check [--hex] FILE...    judge each table
  stramashly check --sarif [--hex] FILE...
                                      the same as one SARIF 2.1.0 log, with fingerprints and edits
  stramashly fill [--hex] FILE...     decide the blank sources of each table
  stramashly fill --table [--hex] FILE
                                      the table with its blanks filled
  stramashly report [--hex] FILE...   count each table's conflicting pairs of rows
  stramashly derive [--hex] FILE M N  why moment M happens before moment N
  stramashly derive --words [--hex] FILE M N
                                      the same in sentences, or what is missing
  stramashly accepts [--hex] FILE M N program-order
  stramashly accepts [--hex] FILE M N S STEP...
                                      whether that is a reason why M happens before N
  stramashly show [--hex] FILE...     each table in words, a line for each row
  stramashly show --text FILE         the table as text, to be read again
  stramashly show --json-lines FILE   the same as JSON, an object a line
  stramashly make [--hex] FILE        the table of a text or of JSON lines
  stramashly explain [--all] [--hex] FILE...
                                      each table's answer in sentences: what is missing, what to
                                      change; with --all every pair and every change
  stramashly explain --json [--hex] FILE...
                                      the same as an object
  stramashly explain --html [--all] [--hex] FILE
                                      the same as a page, with the picture and the table
  stramashly draw [--all] [--hex] FILE
                                      the run as a picture (SVG); of a large run the rows that
                                      matter, or --all
  stramashly edit [--hex] FILE EDIT...
                                      the table with changes made, as explain names them
  stramashly summary [--csv | --json | --html [--pages FOLDER]] FILE...
                                      many runs summed up: verdicts, racing pairs, folders, the
                                      worst runs, what was found in how many
  stramashly summary [--baseline FILE] [--against FILE] FILE...
                                      the same, less what is known, and what is new or gone
  stramashly batch [--json] [-j N]    lines on standard input: `check HEX`, `fill HEX`,
                                      `report HEX`, `derive HEX M N`, `accepts HEX M N ...`,
                                      `rows HEX`, `write VERSION ROOM PLACES ROWS DEPENDENCIES`;
                                      of two pieces `check2 HEX HEX2` and so on, and
                                      `row2 HEX HEX2 ROW`
  stramashly batch --ids [--status] [-j N]
                                      lines `ID<TAB>HEX` or `ID<TAB>check HEX` and so on, answers
                                      `ID<TAB>answer`
  stramashly batch --raw [--ids] [--status] [-j N]
                                      tables as bytes, one after the other
  stramashly completion bash|zsh|fish
                                      a script that completes commands and options
  stramashly help [COMMAND | N]       this text, a command's lines and options, or what refusal N
                                      means
  stramashly --help | --version

FILE `-` is standard input; a directory stands for every file in it and below it, whatever its
name: tables, texts, JSON lines, hex digits in a name that ends in .hex, and what is none of these
is refused. Names that begin with a dot, links to directories and what is no regular file are left
out and counted on standard error. --only PATTERN takes files of directories that match, by their
names or, if it has a /, by their paths: *, ?, **, [a-z]. --files0-from LIST takes names from a
file, or `-`, a zero byte after each, as `find -print0` writes them. With --hex every file holds
hex digits, and a new table is written in them; white space is ignored. Bytes go to a terminal
only with --force. `--` ends the options, for names that begin with a dash. With --json
each answer of check, fill, report, derive, accepts, explain and batch is an object. With --quiet
check, fill, report, derive and accepts print no answers: the exit status has it. With --chains,
check, fill, report, explain, draw and batch answer for a device that reports
vulkanMemoryModelAvailabilityVisibilityChains. -j N works in N threads, answers in order. With
--then ROWS, check, fill, report, derive, accepts, explain and draw add the rows of the file ROWS,
16 bytes each, after those of FILE, and answer for the joined table; sources and moments are
counted over both. In a batch line `-` is a piece of no bytes. An answer is coloured on a terminal
unless NO_COLOR is set. Of several files a last line on standard error says how many had which
answer. What takes over a second shows on a terminal how far it is.

Instead of a table's bytes a FILE may hold text, which begins with `stramashly` and a version, or
JSON lines, which begin with `{`. What is wrong with it is told as FILE:LINE:COLUMN. Where it says
`@ shader.comp:12`, explain, draw and --json name that place beside the row.

An EDIT is `row R FIELD VALUE`, `rows R-S,T FIELD VALUE`, `insert R FIELD VALUE ...` or `depend R
S`, several with `;` between them: kind, agent, order, scope, classes, flags, class, length,
start, reference, source, rank. A new row has place R, and the rows from there on move on by one,
sources and dependencies with them. With depend, in a table of version 3, row S depends on row R.

A moment is 3 times its row, plus 0, 1 or 2: before it, the row itself, after it; or R.before,
R.at, R.after. S is a class set, 1 to 15: the sum of 1 Uniform, 2 Workgroup, 4 Image, 8 Output. A STEP is 512 times its
case, 1 to 4, plus the moment that it reaches: 1 synchronizes-with, 2 to a release, 3 from an
acquire, 4 a dependency. Where M and N aren't two moments of the table, the answer is `refused 12 0`.

rows gives each row's 16 bytes. write makes a table for a buffer of ROOM bytes: PLACES are hex digits,
8 bytes for each agent (family, workgroup, subgroup, and 0 shader, 1 host, 2 queue), ROWS 16 for
each row, DEPENDENCIES 4 for each dependency (two rows); `-` is none.

answers, one line each, with the file's name before it if there are several:
  race-free                           every conflicting pair of rows is ordered
  race I J B                          rows I and J conflict, unordered at byte B
  overwritten Y Z B                   row Z wrote byte B over what row Y read
  cycle L rows R... edges E...        L rows that come before each other in a circle
  refused N ROW                       the table breaks rule of form N, first at ROW
  none                                no filling is consistent
  filled S...                         the source of each row, 65535 for the initial value
  report C M O R SHARE                C pairs conflict: M are mutually-ordered, O ordered at every
                                      shared byte, R race; SHARE is R / C, or `no-share` if C is 0
  program-order                       one agent's moments, in their order
  chain S STEP...                     steps from M to N that hold for class set S
  not-before                          M doesn't happen before N
  accepted                            the derivation leads from M to N
  not-accepted                        it doesn't
  ROW... end                          the table's rows, in hex digits
  written HEX                         the table
  HEX, or none                        of row2: the row's 16 bytes from the piece that holds it

as objects, in the same order:
  {\"verdict\":\"race-free\"}
  {\"verdict\":\"race\",\"first\":I,\"second\":J,\"byte\":B}
  {\"verdict\":\"overwritten\",\"reader\":Y,\"writer\":Z,\"byte\":B}
  {\"verdict\":\"cycle\",\"rows\":[R,...],\"edges\":[E,...]}
  {\"verdict\":\"refused\",\"number\":N,\"row\":ROW,\"name\":NAME}
  {\"verdict\":\"none\"}
  {\"verdict\":\"filled\",\"sources\":[S,...]}
  {\"verdict\":\"report\",\"conflicting\":C,\"mutual\":M,\"ordered\":O,\"racing\":R,\"share\":SHARE or null}
  {\"verdict\":\"program-order\"}
  {\"verdict\":\"chain\",\"classes\":S,\"steps\":[STEP,...]}
  {\"verdict\":\"not-before\"}
  {\"verdict\":\"accepted\"}
  {\"verdict\":\"not-accepted\"}
  {\"verdict\":\"rows\",\"rows\":[ROW,...]}
  {\"verdict\":\"written\",\"table\":HEX}
  {\"verdict\":\"row\",\"bytes\":\"HEX\"} or {\"verdict\":\"none\"}
  {\"verdict\":\"error\",\"reason\":REASON}, of a file that can't be read and of a bad line
If there are several files, \"file\" comes first, the file's name. Of a text \"places\" comes last, the
labels and places of the rows that the answer names: [{\"row\":I,\"label\":LABEL,\"at\":PLACE},...].

exit status, of several files the highest:
  0 race-free, filled, a report without races, a derivation or accepted
  1 race, a report with races, not-before or not-accepted
  2 cycle, overwritten or none    3 refused    4 bad usage, or a file that can't be read

explain begins with the line of check and has its exit status. As an object it has check's
members, and of a race \"nearest\", the rule that comes nearest with \"before\", \"after\" and \"lacks\",
and \"changes\": of each \"reasons\", \"edit\", the \"answer\" after it, \"outcome\", the races \"left\",
whether it \"orders\", \"glsl\" and \"spirv\"; last \"words\", the sentences. show and draw have 0, or 3
for a refused table: show then tells what can be read, draw has no picture.

show --text and --json-lines write nothing of a table that a fill refuses, and make nothing of a
text that gives one: the refusal is told on standard error, and the status is 3.

edit writes text where FILE holds text, with its names, labels and places, and JSON lines where it
holds those. It has 0, or 3 if the new table is refused, which is written as bytes, and fill
--table has fill's statuses: where there is nothing to write, the answer is told on standard
error.

batch answers every line, in order; blank lines and those that begin with # have no answer. A
bad line is answered `error` and a reason; the next line is read all the same. Its exit status
is 0, or 4 if a line was bad; with --status it is the highest of all answers. With --raw each
table is as long as its first four bytes say; after a length that no table has nothing is read.

summary judges every run by check, and counts of those that race the racing pairs. It groups what
it found by the shader lines of the first racing pair, or else by the rows' kinds and what they
lack, and gives each group a fingerprint, which --sarif has too. Its exit status is that of check;
findings that the --baseline has, fingerprints a line or an earlier summary as JSON, don't count.
--against compares with an earlier summary as JSON. --csv has a line for each run. --pages FOLDER
writes a page for each run that the page names, and links to it.

examples:
  stramashly check examples/leak.table
  stramashly fill examples/fill.table
  stramashly report examples/leak.table
  stramashly derive examples/p.table 3 8
  stramashly accepts examples/p.table 3 8 1 1028 519 1544
  stramashly derive --words examples/p.table 1.before 2.after
  stramashly explain examples/leak.table
  stramashly edit examples/leak.table 'row 2 flags 3' | stramashly check -
  stramashly draw examples/leak.table > run.svg
  stramashly show --text examples/leak.table > run.txt
  stramashly make run.txt > run.table
  xxd -p examples/leak.table | stramashly check --hex -
  echo 'check 0000000401000000' | stramashly batch
  cat examples/p.table examples/leak.table | stramashly batch --raw --ids --status
  stramashly summary examples
";
