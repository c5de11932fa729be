//! The createRuntime hook: which containers come up, and each way to go wrong.

#[path = "common/command.rs"]
mod command;

use std::fs;
use std::io::Write;
use std::os::unix::fs::PermissionsExt;
use std::path::{Path, PathBuf};
use std::process::{Command, Stdio};

use command::{with_f, PROGRAM};
use mwishovala::text::pack;

const STATE: &str = r#"{"ociVersion":"1.0.2","id":"c1","status":"creating","pid":7,
    "bundle":"/bundle","annotations":{"mwishovala.volumes":"own"}}"#;

/// The hook's status and what it says on standard error.
fn hook(folder: &Path, state: &str) -> (Option<i32>, String) {
    let hook = Path::new(env!("CARGO_MANIFEST_DIR")).join("hooks/create_runtime.py");
    let mut child = Command::new(hook)
        .arg(folder.join("volumes.json"))
        .stdin(Stdio::piped())
        .stdout(Stdio::null())
        .stderr(Stdio::piped())
        .spawn()
        .expect("the hook needs python3");
    // It may end before it reads.
    let _ = child
        .stdin
        .take()
        .map(|mut stdin| stdin.write_all(state.as_bytes()));
    let output = child.wait_with_output().unwrap();
    let said = String::from_utf8_lossy(&output.stderr).into_owned();
    assert!(!said.contains("Traceback"), "{said}");
    (output.status.code(), said)
}

/// The container doesn't come up, and this is said.
fn is_refused(folder: &Path, state: &str, why: &str) {
    let (status, said) = hook(folder, state);
    assert_eq!(status, Some(1), "{why}: {said}");
    assert!(
        said.starts_with("mwishovala hook: ") && said.contains(why),
        "{why}: {said}"
    );
}

/// A folder with F and a configuration: port 1 is isolated and port 2 is not.
fn configured(name: &str) -> PathBuf {
    let folder = with_f(name);
    configure(&folder, PROGRAM, &folder.join("f.fabric"), "1");
    folder
}

fn configure(folder: &Path, command: &str, fabric: &Path, port: &str) {
    let fabric = fabric.display();
    let entry = |port: &str| format!(r#"{{"fabric":"{fabric}","port":{port}}}"#);
    let volumes = format!(r#"{{"own":{},"leaking":{}}}"#, entry(port), entry("2"));
    let configuration = format!(r#"{{"command":"{command}","volumes":{volumes}}}"#);
    fs::write(folder.join("volumes.json"), configuration).unwrap();
}

/// A command that isn't ours: this shell script.
fn instead(folder: &Path, script: &str) {
    let command = folder.join("command");
    fs::write(&command, format!("#!/bin/sh\n{script}\n")).unwrap();
    fs::set_permissions(&command, fs::Permissions::from_mode(0o755)).unwrap();
    let command = command.display().to_string();
    configure(folder, &command, &folder.join("f.fabric"), "1");
}

#[test]
fn isolated() {
    let folder = configured("hook-isolated");
    assert_eq!(hook(&folder, STATE), (Some(0), String::new()));
    let twice = STATE.replace("\"own\"", "\"own,own\"");
    assert_eq!(hook(&folder, &twice).0, Some(0));
}

#[test]
fn reached() {
    let folder = configured("hook-reached");
    for volumes in ["leaking", "own,leaking", "leaking,own"] {
        let state = STATE.replace("\"own\"", &format!("\"{volumes}\""));
        is_refused(
            &folder,
            &state,
            "port 2: status 1: reached: port 2, from port 1",
        );
    }
}

/// A container stays down if one choice among entries of the same priority, a
/// reply with the addresses swapped, or a frame that is no IPv4 lets something
/// foreign to its volume, and comes up if nothing does.
#[test]
fn as_the_stories_end() {
    let folder = configured("hook-stories");
    let fabric = folder.join("story.fabric");
    let stories = Path::new(env!("CARGO_MANIFEST_DIR")).join("stories");
    for (story, why) in [
        (
            "two-controllers",
            Some("reached: port 2, from port 1, by a choice among equals at hop 1"),
        ),
        ("two-controllers.closed", None),
        ("harmless-ties", None),
        ("reply-swap", Some("reached: port 2, from port 1, sha256")),
        ("reply-swap.closed", None),
        ("table-miss", None),
        ("table-miss.newer", None),
        ("other-frames.ipv4", None),
        ("other-frames", Some("reached: port 2, from port 1, sha256")),
        ("other-frames.closed", None),
    ] {
        let said = fs::read_to_string(stories.join(format!("{story}.fabric.txt"))).unwrap();
        fs::write(&fabric, pack(&said).unwrap()).unwrap();
        configure(&folder, PROGRAM, &fabric, "2");
        match why {
            Some(why) => is_refused(&folder, STATE, why),
            None => assert_eq!(hook(&folder, STATE), (Some(0), String::new())),
        }
    }
}

#[test]
fn command_missing() {
    let folder = configured("hook-no-command");
    let fabric = folder.join("f.fabric");
    configure(&folder, "/nowhere/mwishovala", &fabric, "1");
    is_refused(&folder, STATE, "No such file");
    configure(&folder, &fabric.display().to_string(), &fabric, "1");
    is_refused(&folder, STATE, "Permission denied");
    configure(&folder, "mwishovala", &fabric, "1");
    is_refused(&folder, STATE, "is no absolute path");
}

#[test]
fn file_missing() {
    let folder = configured("hook-no-file");
    fs::remove_file(folder.join("f.fabric")).unwrap();
    is_refused(&folder, STATE, "No such file");
    configure(&folder, PROGRAM, Path::new("f.fabric"), "1");
    is_refused(&folder, STATE, "is no absolute path");
}

#[test]
fn file_damaged() {
    let folder = configured("hook-damaged");
    let whole = fs::read(folder.join("f.fabric")).unwrap();
    for (damaged, question) in [
        (&whole[..whole.len() - 4], "question 2"),
        (&whole[..whole.len() - 1], "question 1"),
        (&[], "question 1"),
        (&[whole.as_slice(), &[0; 4]].concat(), "question 2"),
    ] {
        fs::write(folder.join("f.fabric"), damaged).unwrap();
        is_refused(&folder, STATE, question);
    }
}

#[test]
fn refused() {
    let folder = configured("hook-refused");
    configure(&folder, PROGRAM, &folder.join("f.fabric"), "3");
    is_refused(
        &folder,
        STATE,
        "question 8: the target, port 3, is no edge port",
    );
    for port in ["\"1\"", "true", "0", "4096", "1.0", "null", "[1]", "-1"] {
        configure(&folder, PROGRAM, &folder.join("f.fabric"), port);
        is_refused(&folder, STATE, "is no port");
    }
}

#[test]
fn killed() {
    let folder = configured("hook-killed");
    instead(&folder, &format!("\"{PROGRAM}\" \"$@\"; kill -9 $$"));
    is_refused(&folder, STATE, "status -9: isolated: port 1");
    instead(&folder, "kill -TERM $$");
    is_refused(&folder, STATE, "status -15");
}

/// A status of 0 isn't enough, nor is the line: both, and about this file.
#[test]
fn another_command() {
    let folder = configured("hook-other-command");
    for script in [
        "exit 0",
        "echo isolated",
        "cat; echo isolated: port 1",
        "exit 1",
        "exit 127",
    ] {
        instead(&folder, script);
        is_refused(&folder, STATE, "port 1: status ");
    }
    instead(&folder, &format!("\"{PROGRAM}\" \"$@\"; exit 3"));
    is_refused(&folder, STATE, "status 3: isolated: port 1");
    instead(
        &folder,
        &format!("\"{PROGRAM}\" \"$@\"; \"{PROGRAM}\" \"$@\""),
    );
    is_refused(&folder, STATE, "status 0: isolated: port 1");
    // The gate's line, but about what the file was before it changed.
    let changed =
        format!("\"{PROGRAM}\" show \"$3\" | sed s/20/21/ | \"{PROGRAM}\" pack - \"$3\" >&2");
    instead(&folder, &format!("{changed}\n\"{PROGRAM}\" \"$@\""));
    is_refused(&folder, STATE, "status 0: isolated: port 1");
    instead(&folder, &format!("exec \"{PROGRAM}\" \"$@\""));
    assert_eq!(hook(&folder, STATE).0, Some(0));
}

/// The line has to be about as much as the file's version can say.
#[test]
fn another_versions_line() {
    let folder = configured("hook-other-version");
    let said = |sed: &str| format!("\"{PROGRAM}\" \"$@\" | sed '{sed}'");
    let (less, more) = ("s/Ethernet and //", "s/IPv4/Ethernet and IPv4/");
    instead(&folder, &said(more));
    is_refused(&folder, STATE, "status 0: isolated: port 1");
    let wide = Command::new(PROGRAM)
        .args(["widen", "f.fabric", "wide.fabric"])
        .current_dir(&folder)
        .output();
    assert!(wide.unwrap().status.success());
    fs::rename(folder.join("wide.fabric"), folder.join("f.fabric")).unwrap();
    instead(&folder, &said(less));
    is_refused(&folder, STATE, "status 0: isolated: port 1");
    instead(&folder, &said(""));
    assert_eq!(hook(&folder, STATE).0, Some(0));
}

#[test]
fn state_is_no_state() {
    let folder = configured("hook-state");
    let deep = "[".repeat(100_000);
    for state in ["", "no JSON", "{", "{}{}", "\u{feff}{}", &deep] {
        is_refused(&folder, state, "");
    }
    for state in [
        "{}",
        "[]",
        "7",
        "null",
        r#"{"annotations":null}"#,
        r#"{"annotations":{}}"#,
    ] {
        is_refused(&folder, state, "there is no ");
    }
    let number = STATE.replace("\"own\"", "7");
    is_refused(&folder, &number, "mwishovala.volumes is no text");
}

#[test]
fn no_entry() {
    let folder = configured("hook-no-entry");
    for (volumes, missing) in [
        ("other", "other"),
        ("", ""),
        ("own,", ""),
        ("own, own", " own"),
    ] {
        let state = STATE.replace("\"own\"", &format!("\"{volumes}\""));
        is_refused(&folder, &state, &format!("there is no '{missing}'"));
    }
    for configuration in ["{}", "[]", r#"{"command":"/bin/true"}"#] {
        fs::write(folder.join("volumes.json"), configuration).unwrap();
        is_refused(&folder, STATE, "there is no ");
    }
    fs::write(folder.join("volumes.json"), "no JSON").unwrap();
    is_refused(&folder, STATE, "");
    fs::remove_file(folder.join("volumes.json")).unwrap();
    is_refused(&folder, STATE, "No such file");
}
