//! The batch program: one answer line for each line, bad lines among them.

mod common;

use common::TABLE_P;
use std::io::Write;
use std::process::{Command, Stdio};

fn batch(input: &str) -> String {
    let mut program = Command::new(env!("CARGO_BIN_EXE_second-batch"))
        .stdin(Stdio::piped())
        .stdout(Stdio::piped())
        .spawn()
        .unwrap();
    let mut stdin = program.stdin.take().unwrap();
    stdin.write_all(input.as_bytes()).unwrap();
    drop(stdin);
    let output = program.wait_with_output().unwrap();
    assert!(output.status.success());
    String::from_utf8(output.stdout).unwrap()
}

#[test]
fn each_line_has_its_answer() {
    let p: String = TABLE_P.split_whitespace().collect();
    let initial = format!("{}FFFF0000", &p[..p.len() - 8]);
    let blank = format!("{}FFFE0000", &p[..p.len() - 8]);
    let input = format!(
        "check {p}\ncheck {initial}\nfill {blank}\nfill {initial}\ncheck {blank}\n\
         check 00\ncheck\ncheck \nguess 00\n\ncheck 0\ncheck 0G\ncheck {}\r\ncheck {p}",
        p.to_lowercase()
    );
    let answers = "race-free\ncycle 2 rows 0 3 edges 1 4\nfilled 65535 65535 1 0\nnone\n\
         refused 9 3\nrefused 1 0\nrefused 1 0\nrefused 1 0\nerror neither check nor fill\n\
         error neither check nor fill\nerror odd count of digits\nerror not a hex digit\n\
         race-free\nrace-free\n";
    assert_eq!(batch(&input), answers);
}
