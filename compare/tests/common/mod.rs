//! The program as it is called.

use std::io::Write;
use std::process::{Command, Output, Stdio};

/// Runs it with these words and this input.
pub fn run(words: &[&str], input: &[u8]) -> Output {
    let mut program = Command::new(env!("CARGO_BIN_EXE_compare"))
        .args(words)
        .stdin(Stdio::piped())
        .stdout(Stdio::piped())
        .stderr(Stdio::piped())
        .spawn()
        .unwrap();
    // The program may stop reading before the end, or not read at all.
    let _ = program.stdin.take().unwrap().write_all(input);
    program.wait_with_output().unwrap()
}
