//! The original crate, built unchanged and driven by scripts in a process of its own.

use std::io::{ErrorKind, Read, Write};
use std::path::PathBuf;
use std::process::{Command, Stdio};

/// Where the original's driver is: `IMBOLAVERK_ORIGINAL`, or where `host/original.sh` builds it.
pub fn driver() -> PathBuf {
    match std::env::var("IMBOLAVERK_ORIGINAL") {
        Ok(given) => PathBuf::from(given),
        Err(_) => PathBuf::from(env!("CARGO_MANIFEST_DIR")).join("../../build/original/oracle-pure"),
    }
}

/// Runs the original on a script, with these words; answers what it printed, which is too little where it ended early.
pub fn run(words: &[&str], script: &str) -> std::io::Result<String> {
    let mut child =
        Command::new(driver()).args(words).stdin(Stdio::piped()).stdout(Stdio::piped()).stderr(Stdio::null()).spawn()?;
    let mut input = child.stdin.take().expect("its input is a pipe");
    let mut output = child.stdout.take().expect("its output is a pipe");
    let text = script.to_string();
    let writer = std::thread::spawn(move || input.write_all(text.as_bytes()));
    let mut said = String::new();
    output.read_to_string(&mut said)?;
    let written = writer.join().expect("the writing thread ends");
    child.wait()?;
    match written {
        Err(error) if error.kind() != ErrorKind::BrokenPipe => Err(error),
        _ => Ok(said),
    }
}

/// Whether the original gets a line that the library answered so: a refused call changed nothing, and the original knows no refusal
/// but "the other value", so such lines are left out; a dead clause makes it panic after the same drops.
pub fn takes(answer: &str) -> bool {
    !answer.starts_with("refused ") || answer == "refused 5" || answer.starts_with("refused 8 ")
}

/// Whether the two said the same, word for word.
pub fn agrees(library: &str, original: &str) -> bool {
    match library.strip_prefix("refused 8 ") {
        Some(rest) => original.strip_prefix("panic ") == rest.split(' ').nth(1),
        None => library.split_whitespace().eq(original.split_whitespace()),
    }
}
