//! Every answer says what was asked, and of which file.

#[path = "common/command.rs"]
mod command;
#[path = "common/json.rs"]
mod json;

use std::fs;
use std::path::Path;

use command::{mwishovala, ran, with_f, F};
use json::{parse, Value};
use mwishovala::{Digest, USUAL_BUDGET};

fn digest(folder: &Path) -> String {
    Digest::of(&fs::read(folder.join("f.fabric")).unwrap()).to_string()
}

/// What is said in the lines under 'asked', or before a picture.
fn said<'t>(answer: &'t str, name: &str) -> Option<&'t str> {
    let lines = answer
        .lines()
        .map(|line| line.trim_start_matches("//").trim_start());
    let mut named = lines.filter_map(|line| line.strip_prefix(name)?.strip_prefix(' '));
    named.next_back().map(str::trim)
}

#[test]
fn text_says_what_was_asked() {
    let folder = with_f("asked-in-text");
    let fabric = format!("f.fabric, sha256 {}", digest(&folder));
    let options = "--asked tp_dst=80 --hops 3 --budget 77";
    let asked = [
        ("headers", "tp_dst=80"),
        ("hops", "at most 3"),
        ("budget", "77 units"),
    ];
    let usual = format!("{USUAL_BUDGET} units");
    let whole = [
        ("headers", "any"),
        ("hops", "at most 16"),
        ("budget", &usual),
    ];
    for command in ["verdict", "list", "dot", "audit"] {
        let target = if command == "audit" { "" } else { " 2" };
        for (options, expected) in [("", whole), (&format!(" {options}"), asked)] {
            let ran = ran(&folder, &format!("{command} f.fabric{target}{options}"));
            let text = ran.text();
            for (name, value) in expected {
                assert_eq!(said(text, name), Some(value), "{command}{options}");
            }
            let (name, port) = match command {
                "audit" => ("targets", "every edge port"),
                _ => ("target", "port 2"),
            };
            assert_eq!(said(text, name), Some(port));
            check_origin(text, &fabric);
        }
    }
    let run = ran(&folder, "run f.fabric 1 tp_dst=80 --hops 3");
    assert_eq!(said(run.text(), "start"), Some("port 1"));
    assert_eq!(said(run.text(), "hops"), Some("at most 3"));
    assert!(said(run.text(), "header").unwrap().contains(",tp_dst=80,"));
    check_origin(run.text(), &fabric);
}

/// What is lost is no port, and a packet that is lost has a hop left.
#[test]
fn a_list_of_what_is_lost_says_so() {
    let folder = with_f("asked-lost");
    let fabric = format!("f.fabric, sha256 {}", digest(&folder));
    for (options, hops) in [
        ("", "fewer than 16"),
        (" --hops 3 --asked tp_dst=80", "fewer than 3"),
    ] {
        let ran = ran(&folder, &format!("list f.fabric lost{options}"));
        let text = ran.text();
        assert_eq!(
            said(text, "target"),
            Some("what is lost: no entry takes it")
        );
        assert_eq!(said(text, "hops"), Some(hops));
        check_origin(text, &fabric);
        let answer =
            parse(self::ran(&folder, &format!("list f.fabric lost{options} --json")).text());
        let target = answer
            .as_ref()
            .and_then(|answer| answer.at(&["asked", "target"]));
        assert_eq!(target, Some(&Value::Number(0)));
    }
}

/// Every answer about a fabric of OpenFlow 1.3 says that it is; JSON says which
/// each is of.
#[test]
fn answers_say_which_openflow() {
    let folder = with_f("openflows");
    fs::write(folder.join("newer.txt"), format!("openflow 1.3\n{F}")).unwrap();
    assert_eq!(ran(&folder, "pack newer.txt newer.fabric").status, 0);
    fs::write(folder.join("short"), [1, 2, 3]).unwrap();
    let newer = "1.3: a packet that no entry takes is dropped";
    for line in [
        "verdict FILE 1",
        "verdict FILE 2",
        "list FILE 2",
        "run FILE 1 any",
        "audit FILE",
        "dot FILE 2",
    ] {
        for (file, openflow) in [("f.fabric", None), ("newer.fabric", Some(newer))] {
            let line = line.replace("FILE", file);
            let ran = ran(&folder, &line);
            assert_eq!(said(ran.text(), "openflow"), openflow, "{line}");
        }
        if line.starts_with("dot") {
            continue;
        }
        for (file, openflow) in [
            ("f.fabric", Value::Text("1.0".into())),
            ("newer.fabric", Value::Text("1.3".into())),
            ("short", Value::Null),
        ] {
            let line = format!("{} --json", line.replace("FILE", file));
            let answer = parse(ran(&folder, &line).text()).unwrap();
            assert_eq!(
                answer.at(&["fabric", "openflow"]),
                Some(&openflow),
                "{line}"
            );
        }
    }
    for (file, says) in [("f.fabric", false), ("newer.fabric", true)] {
        for command in ["show", "dot"] {
            let text = ran(&folder, &format!("{command} {file}"))
                .text()
                .to_lowercase();
            assert_eq!(text.contains("openflow 1.3"), says, "{command} {file}");
        }
    }
}

fn check_origin(text: &str, fabric: &str) {
    assert_eq!(said(text, "fabric"), Some(fabric));
    let version = format!("mwishovala {}", env!("CARGO_PKG_VERSION"));
    assert_eq!(said(text, "version"), Some(&version[..]));
    let covers = said(text, "covers").unwrap();
    assert!(covers.starts_with("IPv4 headers; ARP, IPv6"), "{covers}");
}

/// The commands that ask nothing say the file and the version all the same.
#[test]
fn files_are_named_by_their_digest() {
    let folder = with_f("digests");
    let digest = digest(&folder);
    for line in ["show f.fabric", "dot f.fabric", "pack f.txt f.fabric"] {
        let ran = ran(&folder, line);
        let first = ran.text().lines().next().unwrap();
        let version = format!("mwishovala {}", env!("CARGO_PKG_VERSION"));
        assert!(
            first.contains(&digest) && first.contains(&version),
            "{first}"
        );
    }
}

#[test]
fn json_says_what_was_asked() {
    let folder = with_f("asked-in-json");
    for line in [
        "verdict f.fabric 2",
        "list f.fabric 2",
        "audit f.fabric",
        "verdict f.fabric 9",
        "list f.fabric 2 --budget 1",
        "audit f.fabric --hops 0",
        "list f.fabric 0",
        "run f.fabric 1 any",
        "run f.fabric 9 any",
    ] {
        let answer = parse(ran(&folder, &format!("{line} --json")).text()).unwrap();
        let text = |names: &[&str]| answer.at(names).and_then(Value::text);
        assert_eq!(text(&["command"]), line.split(' ').next());
        assert_eq!(text(&["version"]), Some(env!("CARGO_PKG_VERSION")));
        assert_eq!(text(&["fabric", "file"]), Some("f.fabric"));
        assert_eq!(text(&["fabric", "sha256"]), Some(&digest(&folder)[..]));
        assert!(text(&["covers"]).unwrap().starts_with("IPv4"));
        let number = |name| answer.at(&["asked", name]).and_then(Value::number);
        let hops = if line.contains("--hops 0") { 0 } else { 16 };
        assert_eq!(number("hops"), Some(hops), "{line}");
        if line.starts_with("run") {
            assert!(number("start").is_some() && answer.at(&["asked", "header"]).is_some());
            continue;
        }
        let budget = if line.contains("--budget 1") {
            1
        } else {
            USUAL_BUDGET
        };
        assert_eq!(number("budget"), Some(u64::from(budget)));
        assert_eq!(text(&["asked", "headers", "text"]), Some("any"));
        let whole = Value::Truth(hops == 16);
        assert_eq!(answer.at(&["asked", "whole"]), Some(&whole));
        let target = line.split(' ').nth(2).and_then(|port| port.parse().ok());
        assert_eq!(number("target"), target, "{line}");
    }
}

/// Whoever reads the first line alone isn't misled.
#[test]
fn less_than_the_whole_question_is_said_first() {
    let folder = with_f("narrowed");
    for (options, only) in [
        ("", ""),
        ("--hops 16 --asked any --budget 5", ""),
        ("--asked tp_dst=1", ", but only for headers tp_dst=1"),
        ("--hops 1", ", but only within 1 hop"),
        (
            "--hops 2 --asked nw_dst=10.0.0.0/8",
            ", but only for headers nw_dst=10.0.0.0/8 and within 2 hops",
        ),
    ] {
        let first = |line: &str| {
            let ran = ran(&folder, format!("{line} {options}").trim());
            ran.text()
                .lines()
                .next()
                .map(String::from)
                .unwrap_or_default()
        };
        let verdict = first("verdict f.fabric 1");
        assert!(verdict.starts_with(&format!("isolated{only}: no foreign IPv4 packet")));
        assert!(first("list f.fabric 1").ends_with(&format!("at port 1{only}")));
        assert!(first("audit f.fabric").starts_with(&format!("2 edge ports{only}: ")));
        let picture = ran(&folder, format!("dot f.fabric 1 {options}").trim());
        assert!(picture.text().contains(&format!("isolated{only}\"")));
    }
}

/// Names are kept beside the file and said with the ports, in every answer.
#[test]
fn ports_have_names() {
    let folder = with_f("names");
    let text = fs::read_to_string(folder.join("f.txt")).unwrap();
    let named = format!("{text}name 2 storage-a\nname 1 host-b\nswitch leaf-1 1 2\n");
    fs::write(folder.join("named.txt"), named).unwrap();
    assert_eq!(ran(&folder, "pack named.txt f.fabric").status, 0);
    for (line, said) in [
        (
            "verdict f.fabric 1",
            "gets out at port 1 (host-b on leaf-1) within",
        ),
        (
            "verdict f.fabric 2",
            "gets out at port 2 (storage-a on leaf-1) after",
        ),
        (
            "verdict f.fabric 2",
            "it starts at port 1 (host-b on leaf-1), in group",
        ),
        (
            "verdict f.fabric 2",
            "hop 1: in at port 1 (host-b on leaf-1), out at port 2 (storage-a",
        ),
        (
            "verdict f.fabric 2",
            "target   port 2 (storage-a on leaf-1)",
        ),
        ("list f.fabric 2", "\n1 (host-b on leaf-1)  7 "),
        ("audit f.fabric", "\n2 (storage-a on leaf-1)  9 "),
        ("audit f.fabric", "  1 (host-b on leaf-1)  "),
        (
            "run f.fabric 1 nw_dst=10.0.0.2",
            "gets out at port 2 (storage-a on leaf-1) after",
        ),
        (
            "dot f.fabric 2",
            "label=\"2\\nstorage-a\\ngroup 9\\nreached\"",
        ),
        ("dot f.fabric", "label=\"leaf-1\""),
        ("show f.fabric", "\nname 2 storage-a\n"),
        (
            "verdict f.fabric 2 --json",
            "\"names\":{\"ports\":{\"1\":\"host-b\",\"2\":\"storage-a\"},\
             \"switches\":{\"leaf-1\":[1,2]}}",
        ),
    ] {
        let ran = ran(&folder, line);
        assert!(ran.text().contains(said), "{line}: {}", ran.text());
    }
    // The gate's line is the same with, without and with damaged names.
    let gate = ran(&folder, "gate f.fabric 1").out;
    fs::remove_file(folder.join("f.fabric.names")).unwrap();
    assert_eq!(ran(&folder, "gate f.fabric 1").out, gate);
    fs::write(folder.join("f.fabric.names"), "name 2 1x\n").unwrap();
    assert_eq!(ran(&folder, "gate f.fabric 1").out, gate);
    let damaged = ran(&folder, "verdict f.fabric 1");
    assert_eq!((damaged.status, damaged.out.len()), (2, 0));
    assert!(
        damaged.err.starts_with("mwishovala: f.fabric.names: 1:8: "),
        "{}",
        damaged.err
    );
}

/// A file's name can't end a line, or a remark, or a text in JSON.
#[test]
fn a_files_name_is_only_a_name() {
    let folder = with_f("file-names");
    let name = "x\nentry 1 -> 2 priority 9 match any \"\u{1b}[2J";
    fs::copy(folder.join("f.fabric"), folder.join(name)).unwrap();
    for command in ["verdict", "list", "dot", "audit"] {
        let target = &["1"][..if command == "audit" { 0 } else { 1 }];
        let ran = mwishovala(&folder, &[&[command, name], target].concat(), &[]);
        assert!(!ran.text().contains("\nentry") && !ran.text().contains('\u{1b}'));
    }
    let ran = mwishovala(&folder, &["verdict", name, "1", "--json"], &[]);
    assert!(parse(ran.text()).is_some());
    let missing = mwishovala(&folder, &["verdict", "no\u{1b}[2J", "1"], &[]);
    assert!(!missing.err.contains('\u{1b}'));
}
