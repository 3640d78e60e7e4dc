//! The command `just-sheet`, run.

use std::path::PathBuf;
use std::process::{Command, Output};

/// A file of its own for a test.
pub fn file(name: &str, bytes: &[u8]) -> String {
    let path: PathBuf = [env!("CARGO_TARGET_TMPDIR"), name].iter().collect();
    std::fs::write(&path, bytes).expect("a file");
    path.to_str().expect("a path").into()
}

fn run(words: &[&str]) -> Output {
    Command::new(env!("CARGO_BIN_EXE_just-sheet")).args(words).output().expect("the command runs")
}

/// What is printed, and the exit status.
pub fn says(words: &[&str]) -> (String, i32) {
    let output = run(words);
    (String::from_utf8(output.stdout).expect("text"), output.status.code().expect("a status"))
}

/// What is complained of; the exit status is 2.
pub fn complains(words: &[&str]) -> String {
    let output = run(words);
    assert_eq!((output.status.code(), output.stdout.len()), (Some(2), 0));
    String::from_utf8(output.stderr).expect("text")
}
