//! The stories, typed again: `stories/*.session`.

#[path = "common/command.rs"]
mod command;

use std::fs;
use std::path::Path;

use command::{folder, mwishovala};
use mwishovala::{text, AnyFabric, Fabric, HeaderSet};

fn tell(story: &str) {
    let stories = Path::new(env!("CARGO_MANIFEST_DIR")).join("stories");
    let folder = folder(story);
    for text in fs::read_dir(&stories).unwrap() {
        let text = text.unwrap();
        fs::copy(text.path(), folder.join(text.file_name())).unwrap();
    }
    let session = fs::read_to_string(stories.join(story).with_extension("session")).unwrap();
    let mut typed = String::new();
    for line in session.lines().filter(|line| line.starts_with("$ ")) {
        let arguments: Vec<&str> = line.split(' ').skip(2).collect();
        let ran = mwishovala(&folder, &arguments, &[]);
        typed += &format!("{line}\n{}{}", ran.text(), ran.err);
        if ran.status != 0 {
            typed += &format!("[{}]\n", ran.status);
        }
    }
    assert_eq!(typed, session);
}

#[test]
fn an_older_allow_has_a_higher_priority() {
    tell("older-allow");
}

#[test]
fn a_rewrite_on_the_second_switch() {
    tell("second-switch");
}

#[test]
fn a_volume_is_passed_on() {
    tell("passed-on");
}

#[test]
fn two_controllers_have_one_priority() {
    tell("two-controllers");
}

#[test]
fn ties_that_do_no_harm() {
    tell("harmless-ties");
}

#[test]
fn a_reply_goes_to_a_forged_source() {
    tell("reply-swap");
}

#[test]
fn no_entry_of_the_second_switch_takes_it() {
    tell("table-miss");
}

#[test]
fn frames_that_are_no_ipv4() {
    tell("other-frames");
}

#[test]
fn beaters_attribute_by_attribute() {
    tell("trap-attributes");
}

#[test]
fn undoing_a_rewrite() {
    tell("trap-rewrite");
}

#[test]
fn a_beater_at_the_exit() {
    tell("trap-exit");
}

#[test]
fn forward_again() {
    tell("trap-equality");
}

/// Without a protocol that has ports, a switch reads a match on a port as any.
#[test]
fn ports_have_a_protocol() {
    let stories = Path::new(env!("CARGO_MANIFEST_DIR")).join("stories");
    let mut with_ports = 0;
    for story in fs::read_dir(stories).unwrap() {
        let path = story.unwrap().path();
        if path.extension().is_none_or(|extension| extension != "txt") {
            continue;
        }
        let file = text::pack(&fs::read_to_string(&path).unwrap()).unwrap();
        with_ports += match AnyFabric::read(&file).unwrap() {
            AnyFabric::V1(fabric) => entries_with_ports(&fabric, &path),
            AnyFabric::V2(fabric) => entries_with_ports(&fabric, &path),
        };
    }
    assert_eq!(with_ports, 16);
}

/// How many entries match or write ports, all of them of TCP.
fn entries_with_ports<const N: usize>(fabric: &Fabric<N>, path: &Path) -> u32 {
    let tcp: HeaderSet<N> = "nw_proto=tcp".parse().unwrap();
    let entries = fabric.entries.iter().map(|entry| {
        let on_ports = entry.matching.care[2] | entry.rewrite.care[2] != 0;
        assert!(!on_ports || entry.matching.is_within(&tcp), "{path:?}");
        u32::from(on_ports)
    });
    entries.sum()
}

/// No story is left out above.
#[test]
fn all_are_told() {
    let stories = Path::new(env!("CARGO_MANIFEST_DIR")).join("stories");
    let files = fs::read_dir(stories).unwrap();
    let sessions = files.filter(|file| {
        let path = file.as_ref().unwrap().path();
        path.extension()
            .is_some_and(|extension| extension == "session")
    });
    assert_eq!(sessions.count(), 12);
}
