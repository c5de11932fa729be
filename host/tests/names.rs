//! Names for ports and switches: said in a text, kept beside a fabric file, and
//! nowhere in it.

#[path = "common/command.rs"]
mod command;

use std::fs;

use command::folder;
use mwishovala::text::{pack, pack_named, show_named};
use mwishovala::{Fabric, Names};
use reference::file::write;
use reference::random::{any, cases, Rng};

const EDGES: &str = "edge 1 group 7 admits any\nedge 2 group 9 admits any\n";

#[test]
fn names_are_no_part_of_the_file() {
    let text = format!("name 1 host\n{EDGES}switch leaf-1 10 1\nname 10 up.link_2 # a remark\n");
    let packed = pack_named(&text).unwrap();
    assert_eq!(Ok(&packed.file), pack(EDGES).as_ref());
    let said: Vec<String> = [1, 2, 10]
        .map(|port| packed.names.port(port).to_string())
        .into();
    assert_eq!(
        said,
        ["1 (host on leaf-1)", "2", "10 (up.link_2 on leaf-1)"]
    );
    let switches: Vec<(&str, Vec<u16>)> = packed
        .names
        .switches()
        .map(|(name, ports)| (name, ports.collect()))
        .collect();
    assert_eq!(switches, [("leaf-1", vec![1, 10])]);
    assert!(!packed.names.is_empty() && pack_named(EDGES).unwrap().names.is_empty());
}

/// Shown and packed again, fabric and names are the same.
#[test]
fn names_are_shown_as_they_are_read() {
    cases(12_300_000, 1000, |rng| {
        let file = write(&any(rng));
        let names = random_names(rng);
        let shown = show_named(&Fabric::read(&file).unwrap(), &names);
        let packed = pack_named(&shown).unwrap();
        assert!(packed.file == file && packed.names == names, "{shown}");
        assert_eq!(names.to_string().parse(), Ok(names));
    });
}

fn random_names(rng: &mut Rng) -> Names {
    let mut text = String::new();
    for port in 1..=rng.between(1, 40) {
        if rng.once_in(2) {
            text += &format!("name {port} {}{port}\n", rng.one_of(["p", "Z-_.", "a0."]));
        }
    }
    for switch in 0..rng.below(4) {
        text += &format!("switch s{switch} {} {}\n", 100 + switch, 200 + switch);
    }
    text.parse().unwrap()
}

/// Words that a text or the command has a meaning for are names like any other.
#[test]
fn names_that_are_words() {
    let text = format!("openflow 1.3\n{EDGES}name 1 lost\nname 2 openflow\nswitch drop 1 2\n");
    let packed = pack_named(&text).unwrap();
    assert_eq!(packed.names.port(1).to_string(), "1 (lost on drop)");
    assert_eq!(packed.names.port(2).to_string(), "2 (openflow on drop)");
    let shown = show_named(&Fabric::read(&packed.file).unwrap(), &packed.names);
    assert_eq!(pack_named(&shown), Ok(packed));
}

#[test]
fn wrong_names() {
    let sixty_five = format!("name 1 {}", "a".repeat(65));
    let wrong = [
        ("name", "1:5: a port is missing"),
        ("name 1", "1:7: a name is missing"),
        ("name x a", "1:6: 'x' is no port"),
        ("name 0 a", "1:6: there is no port 0"),
        (
            "name 4096 a",
            "1:6: '4096' is too large for port: at most 4095",
        ),
        ("name 1 a b", "1:10: 'b' is too much"),
        (
            "name 1 12",
            "1:8: a name is a letter, then letters, digits, '-', '_' and '.'",
        ),
        (
            "name 1 a/b",
            "1:8: a name is a letter, then letters, digits, '-', '_' and '.'",
        ),
        (
            "name 1 é",
            "1:8: a name is a letter, then letters, digits, '-', '_' and '.'",
        ),
        (&sixty_five, "1:8: a name has at most 64 characters"),
        ("name 1 a\nname 1 b", "2:8: port 1 has a name already, a"),
        ("name 1 a\nname 2 a", "2:8: a is the name of port 1"),
        ("switch a", "1:9: a port is missing"),
        ("switch a 1 0", "1:12: there is no port 0"),
        ("switch a 1 1", "1:12: port 1 is on a switch already, a"),
        (
            "switch a 1\nswitch b 1",
            "2:10: port 1 is on a switch already, a",
        ),
        (
            "switch a 1\nswitch a 2",
            "2:8: a is the name of another switch",
        ),
    ];
    for (text, message) in wrong {
        assert_eq!(text.parse::<Names>().unwrap_err().to_string(), message);
        assert_eq!(pack_named(text).unwrap_err().to_string(), message);
    }
    for (text, message) in [
        (
            "edge 1 group 1 admits any",
            "1:1: 'edge': a line is a name or a switch",
        ),
        (
            "name 1 a\nopenflow 1.3",
            "2:1: 'openflow': a line is a name or a switch",
        ),
    ] {
        assert_eq!(text.parse::<Names>().unwrap_err().to_string(), message);
    }
}

/// Read where they are, never needed, and refused where they are damaged.
#[test]
fn names_beside_a_file() {
    let folder = folder("names");
    let fabric = folder.join("f.fabric");
    let beside = folder.join("f.fabric.names");
    let _ = fs::remove_file(&beside);
    assert_eq!(Names::file_of(&fabric), beside);
    assert_eq!(Names::beside(&fabric), Ok(Names::default()));
    fs::write(&beside, "name 1 storage-a\n").unwrap();
    assert_eq!(
        Names::beside(&fabric).unwrap().of_port(1),
        Some("storage-a")
    );
    for damaged in [
        &b"name 1"[..],
        b"name 1 \xff",
        b"\0",
        b"edge 1 group 1 admits any",
    ] {
        fs::write(&beside, damaged).unwrap();
        let unreadable = Names::beside(&fabric).unwrap_err();
        assert_eq!(unreadable.file, beside);
        assert!(unreadable.to_string().contains("f.fabric.names: "));
    }
    fs::remove_file(&beside).unwrap();
    fs::create_dir(&beside).unwrap();
    assert!(Names::beside(&fabric).is_err());
    fs::remove_dir(&beside).unwrap();
}
