//! The proved program, run with an input.

use std::env;
use std::io::Write;
use std::path::PathBuf;
use std::process::{Command, Stdio};
use std::thread;
use std::time::Duration;

/// Where the program is looked for, if not in `../target/bin/query`.
const QUERY: &str = "FABRIC_QUERY";

fn path() -> PathBuf {
    match env::var_os(QUERY) {
        Some(path) => PathBuf::from(path),
        None => PathBuf::from(env!("CARGO_MANIFEST_DIR")).join("../target/bin/query"),
    }
}

/// What the program prints.
pub fn printed(input: &[u8]) -> String {
    printed_in_pieces(input, input.len().max(1))
}

/// The same, with a pause after each piece of this size.
pub fn printed_in_pieces(input: &[u8], size: usize) -> String {
    let mut child = Command::new(path())
        .stdin(Stdio::piped())
        .stdout(Stdio::piped())
        .spawn()
        .expect("the program: make it by 'tools/library', or set FABRIC_QUERY");
    if let Some(mut stdin) = child.stdin.take() {
        let mut pieces = input.chunks(size).peekable();
        while let Some(piece) = pieces.next() {
            // The program may stop reading before all is written.
            if stdin.write_all(piece).is_err() {
                break;
            }
            if pieces.peek().is_some() {
                thread::sleep(Duration::from_micros(300));
            }
        }
    }
    let output = child.wait_with_output().expect("the program ends");
    String::from_utf8(output.stdout).expect("it prints text")
}
