//! The command `mwishovala`, run in a folder of its own.

#![allow(dead_code)]

use std::ffi::OsStr;
use std::fs;
use std::io::Write;
use std::path::{Path, PathBuf};
use std::process::{Command, Stdio};

/// An empty folder for one test's files.
pub fn folder(name: &str) -> PathBuf {
    let folder = Path::new(env!("CARGO_TARGET_TMPDIR")).join(name);
    let _ = fs::remove_dir_all(&folder);
    fs::create_dir_all(&folder).expect("a folder for the test");
    folder
}

/// What was printed, and the status.
#[derive(Debug, PartialEq, Eq)]
pub struct Ran {
    pub out: Vec<u8>,
    pub err: String,
    pub status: i32,
}

impl Ran {
    pub fn text(&self) -> &str {
        std::str::from_utf8(&self.out).expect("it prints text")
    }
}

/// The program.
pub const PROGRAM: &str = env!("CARGO_BIN_EXE_mwishovala");

/// Runs the command there. It never panics and is never killed.
pub fn mwishovala(folder: &Path, arguments: &[impl AsRef<OsStr>], input: &[u8]) -> Ran {
    let mut command = Command::new(PROGRAM);
    command.args(arguments);
    finished(command.current_dir(folder), input)
}

/// Runs this shell script there, with the program as `$0`.
pub fn in_a_shell(folder: &Path, script: &str) -> Ran {
    let mut shell = Command::new("sh");
    shell.args(["-c", script, PROGRAM]);
    finished(shell.current_dir(folder), &[])
}

fn finished(command: &mut Command, input: &[u8]) -> Ran {
    let mut child = command
        .stdin(Stdio::piped())
        .stdout(Stdio::piped())
        .stderr(Stdio::piped())
        .spawn()
        .expect("the command runs");
    // The command may stop reading before all is written.
    let _ = child.stdin.take().map(|mut stdin| stdin.write_all(input));
    let output = child.wait_with_output().expect("the command ends");
    let err = String::from_utf8_lossy(&output.stderr).into_owned();
    let status = output.status.code().unwrap_or(-1);
    assert!((0..=2).contains(&status), "{command:?}: {status}: {err}");
    assert!(!err.contains("panicked"), "{command:?}: {err}");
    Ran {
        out: output.stdout,
        err,
        status,
    }
}

/// What it can be asked to do.
pub const COMMANDS: [&str; 12] = [
    "verdict",
    "gate",
    "list",
    "run",
    "audit",
    "show",
    "pack",
    "widen",
    "dot",
    "help",
    "man",
    "completions",
];

/// Document 01's fabric F as text.
pub const F: &str = "\
edge 1 group 7 admits any
edge 2 group 9 admits any
entry 1 -> drop priority 20 match tp_dst=0x1/0x3
entry 1 -> 2 priority 10 match nw_dst=10.0.0.2
";

/// A folder with F as `f.txt` and `f.fabric`.
pub fn with_f(name: &str) -> PathBuf {
    let folder = folder(name);
    fs::write(folder.join("f.txt"), F).unwrap();
    let packed = mwishovala(&folder, &["pack", "f.txt", "f.fabric"], &[]);
    assert_eq!((packed.status, &packed.err[..]), (0, ""));
    folder
}

/// The command with the words of this line.
pub fn ran(folder: &Path, line: &str) -> Ran {
    let arguments: Vec<&str> = line.split(' ').collect();
    mwishovala(folder, &arguments, &[])
}
