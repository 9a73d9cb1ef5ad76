//! The programs as programs: standard input to standard output.

mod common;
use common::*;

use std::io::Write;
use std::process::{Command, Stdio};

fn printed(program: &str, input: &[u8]) -> String {
    let mut child = Command::new(program)
        .stdin(Stdio::piped())
        .stdout(Stdio::piped())
        .spawn()
        .unwrap();
    // A program may stop reading at an input that is too long, so a failed write is no fault.
    let _ = child.stdin.take().unwrap().write_all(input);
    let output = child.wait_with_output().unwrap();
    assert!(output.status.success());
    String::from_utf8(output.stdout).unwrap()
}

#[test]
fn rowmap_prints() {
    let program = env!("CARGO_BIN_EXE_rowmap");
    assert_eq!(
        printed(program, format!("0F04\n{XOR}").as_bytes()),
        XOR_ROW_5
    );
    assert_eq!(printed(program, b""), "1F02\n");
    assert_eq!(printed(program, &[b'0'; 65_537]), "1F01\n");
    assert_eq!(printed(program, &[0xFF; 300]), "1F01\n");
}

#[test]
fn rowcheck_prints() {
    let program = env!("CARGO_BIN_EXE_rowcheck");
    assert_eq!(
        printed(program, format!("{XOR}{XOR_ROW_5}").as_bytes()),
        "1E0008\n"
    );
    assert_eq!(printed(program, XOR.as_bytes()), "1F02\n");
    let mut long = XOR.as_bytes().to_vec();
    long.resize(65_537, b'\n');
    assert_eq!(printed(program, &long), "1F01\n");
}

#[test]
fn cases_are_many_and_hold_every_number() {
    let cases = printed(env!("CARGO_BIN_EXE_cases"), b"");
    assert_eq!(cases, printed(env!("CARGO_BIN_EXE_cases"), b""));
    assert!(cases.matches("refl").count() >= 36);
    for number in 1..=17 {
        let said = [format!("refused {number})"), format!("keeps {number} ")];
        assert!(said.iter().any(|said| cases.contains(said)), "{number}");
    }
}
