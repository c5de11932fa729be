//! A status of 0 is 'isolated' for whoever scripts verdict, gate and audit.

#[path = "common/command.rs"]
mod command;

use std::ffi::OsStr;
use std::fs;
use std::os::unix::ffi::OsStrExt;
use std::process::{Command, Stdio};

use command::{folder, in_a_shell, mwishovala, ran, with_f, COMMANDS, PROGRAM};

#[test]
fn help_and_version_stand_alone() {
    let folder = with_f("help-alone");
    let overview = ran(&folder, "--help");
    assert_eq!(overview.status, 0);
    assert!(overview.text().contains("mwishovala verdict FABRIC TARGET"));
    for line in ["-h", "help"] {
        assert_eq!(ran(&folder, line), overview, "{line}");
    }
    let version = ran(&folder, "--version");
    let expected = format!("mwishovala {}\nlibrary: ", env!("CARGO_PKG_VERSION"));
    assert!(version.text().starts_with(&expected) && version.status == 0);
    for command in COMMANDS {
        let help = ran(&folder, &format!("help {command}"));
        assert_eq!(help.status, 0);
        assert!(help.text().starts_with(&format!("mwishovala {command}")));
        for flag in ["--help", "-h"] {
            let after = ran(&folder, &format!("{command} {flag}"));
            assert_eq!(after.text(), help.text());
            // A gate's 0 is for 'isolated' alone.
            assert_eq!(after.status, if command == "gate" { 2 } else { 0 });
        }
    }
}

/// Each of these once had, or could have, a status of 0.
#[test]
fn nothing_else_passes_for_isolated() {
    let folder = with_f("no-other-way");
    fs::write(folder.join("empty"), [2, 0, 1, 0x10, 0, 0, 0, 0x50]).unwrap();
    for line in [
        "verdict f.fabric -h",
        "verdict f.fabric --help",
        "verdict f.fabric 2 --help",
        "verdict --help f.fabric 2",
        "verdict f.fabric 2 --asked --help",
        "verdict --hops -h f.fabric 2",
        "verdict f.fabric 2 --version",
        "verdict --version",
        "--version verdict f.fabric 2",
        "--help verdict",
        "--help --help",
        "--version --version",
        "--version --help",
        "help verdict f.fabric",
        "help --version",
        "help gate 2",
        "audit --help f.fabric",
        "audit f.fabric -h",
        "audit empty",
        "audit empty --json",
        "gate f.fabric -h",
        "gate --help",
        "gate -h",
        "gate --version",
        "gate f.fabric 1 --asked tp_dst=1",
        "gate f.fabric 1 --asked=any",
        "gate f.fabric 1 --hops 16",
        "gate f.fabric 1 --json",
        "gate f.fabric 1 1",
        "gate f.fabric 2 --budget 1",
        "gate f.fabric 9",
        "gate f.fabric 0",
        "gate f.fabric lost",
        "gate lost",
        "verdict f.fabric 0",
        "verdict f.fabric lost",
        "verdict f.fabric lost --json",
        "audit f.fabric lost",
        "list f.fabric lost lost",
        "gate empty 1",
        "gate f.txt 1",
        "verdict f.fabric 1 --json --json",
        "verdict f.fabric 1 --json=yes",
        "verdict f.fabric 1 --json=",
        "verdict f.fabric 1 -j",
        "verdict f.fabric 1 --hops 1 --hops 1",
        "verdict f.fabric 1 --hops=",
        "verdict f.fabric 1 --budget=-1",
        "verdict f.fabric 1 --budget 4294967296",
        "verdict f.fabric 4294967297",
        "verdict f.fabric 0x1",
        "verdict f.fabric -- 1 --json",
        "verdict f.fabric -- -h",
        "verdict empty 1",
        "audit f.fabric --asked tp_dst=1 --jobs 0",
        "audit f.fabric --asked tp_dst=1 --jobs 65",
        "man verdict",
        "completions bash fish",
        "completions tcsh",
    ] {
        let ran = ran(&folder, line);
        assert_eq!(ran.status, 2, "{line}: {}{}", ran.text(), ran.err);
    }
    for arguments in [
        &[][..],
        &["verdict", "f.fabric", ""],
        &["verdict", "f.fabric", " 1"],
        &["verdict", "f.fabric", "1", ""],
        &["verdict", "", "1"],
        &["verdict", "f.fabric", "1", "--asked", ""],
        &["verdict", "f.fabric", "1", "--asked", "any "],
        &["gate", "f.fabric", ""],
        &["gate", "f.fabric", "1 "],
        &["audit", ""],
        &["", "--help"],
        &["verdict", "--help", ""],
    ] {
        let ran = mwishovala(&folder, arguments, &[]);
        assert_eq!((ran.status, ran.out.len()), (2, 0), "{arguments:?}");
    }
}

/// Words that are no text, at every place.
#[test]
fn bytes_are_no_answer() {
    let folder = with_f("bytes");
    let odd = [
        &[0xff][..],
        b"-\xff",
        b"--asked=\xff",
        b"--\xff",
        b"1\xff",
        b"\xff=1",
    ];
    let line = ["verdict", "f.fabric", "1"].map(OsStr::new);
    for bytes in odd.map(OsStr::from_bytes) {
        for place in 0..line.len() {
            let mut replaced = line;
            replaced[place] = bytes;
            let mut inserted = line.to_vec();
            inserted.insert(place, bytes);
            for words in [&replaced[..], &inserted] {
                assert_eq!(mwishovala(&folder, words, &[]).status, 2, "{words:?}");
            }
        }
    }
}

/// What follows -- is no option, whatever it looks like.
#[test]
fn two_dashes_end_the_options() {
    let folder = with_f("two-dashes");
    fs::copy(folder.join("f.fabric"), folder.join("--json")).unwrap();
    let named = ran(&folder, "verdict -- --json 1");
    let plain = ran(&folder, "verdict --hops 16 -- f.fabric 1");
    for ran in [&named, &plain] {
        assert_eq!(ran.status, 0, "{}", ran.err);
        assert!(ran.text().starts_with("isolated: "));
    }
    assert_eq!(ran(&folder, "verdict -- f.fabric 1 --").status, 2);
}

/// One line for each command that succeeds where its output can be written.
const WRITTEN: [&str; 14] = [
    "verdict f.fabric 1",
    "gate f.fabric 1",
    "list f.fabric 2",
    "list f.fabric lost",
    "run f.fabric 1 any",
    "audit f.fabric --asked tp_dst=1",
    "show f.fabric",
    "pack f.txt -",
    "widen f.fabric -",
    "dot f.fabric",
    "help",
    "man",
    "completions bash",
    "--version",
];

#[test]
fn an_output_that_is_closed_or_full_is_an_error() {
    let folder = with_f("output");
    for command in COMMANDS {
        assert!(WRITTEN.iter().any(|line| line.starts_with(command)));
    }
    for line in WRITTEN {
        assert_eq!(ran(&folder, line).status, 0, "{line}");
        for (redirected, said) in [(">&-", "closed"), (">/dev/full", "No space left")] {
            let ran = in_a_shell(&folder, &format!("\"$0\" {line} {redirected}"));
            assert_eq!(ran.status, 2, "{line} {redirected}");
            let expected = format!("mwishovala: standard output: {said}");
            assert!(
                ran.err.replace("it is ", "").starts_with(&expected),
                "{}",
                ran.err
            );
        }
        // The reader is gone before anything is written.
        let (reader, writer) = std::io::pipe().unwrap();
        drop(reader);
        let mut broken = Command::new(PROGRAM);
        broken
            .args(line.split(' '))
            .current_dir(&folder)
            .stdin(Stdio::null());
        let broken = broken.stdout(writer).stderr(Stdio::null()).status();
        assert_eq!(broken.unwrap().code(), Some(2), "{line}");
    }
}

/// What somebody doesn't want to read isn't closed, however it was opened.
#[test]
fn an_output_to_nowhere_is_open() {
    let folder = with_f("nowhere");
    for redirected in [">/dev/null", "1<>/dev/null"] {
        let ran = in_a_shell(&folder, &format!("\"$0\" verdict f.fabric 1 {redirected}"));
        assert_eq!((ran.status, &ran.err[..]), (0, ""));
    }
}

#[test]
fn an_audit_of_no_port_is_no_isolated() {
    let folder = folder("no-edges");
    fs::write(folder.join("empty"), [2, 0, 1, 0x10, 0, 0, 0, 0x50]).unwrap();
    let ran = ran(&folder, "audit empty");
    assert_eq!((ran.out.len(), ran.status), (0, 2));
    assert_eq!(
        ran.err,
        "mwishovala: empty: it has no edge ports, so there is nothing to audit\n"
    );
}
