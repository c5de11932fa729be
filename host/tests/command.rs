//! The command, end to end: what it says, and its status.

#[path = "common/command.rs"]
mod command;

use std::fs;
use std::path::Path;

use command::{folder, mwishovala, ran, with_f, COMMANDS, F};
use reference::file::write;
use reference::random::deep_ring;

#[test]
fn the_status_says_it() {
    let folder = with_f("status");
    with_newer(&folder);
    for (line, status) in [
        ("verdict f.fabric 1", 0),
        ("verdict f.fabric 2", 1),
        ("verdict f.fabric 2 --asked nw_dst=10.0.0.3", 0),
        ("verdict f.fabric 2 --asked nw_dst=10.0.0.0/24,tp_dst=80", 1),
        ("verdict f.fabric 2 --asked=tp_dst=0x1/0x3", 0),
        ("verdict f.fabric 3", 2),
        ("verdict f.fabric 2 --hops 17", 2),
        ("verdict f.fabric 2 --hops 1 --budget 1", 2),
        ("verdict f.txt 2", 2),
        ("verdict nowhere 2", 2),
        ("list f.fabric 2", 0),
        ("list f.fabric 1", 0),
        ("list f.fabric 9", 2),
        ("list f.fabric lost", 0),
        ("list f.fabric 0", 0),
        (
            "list f.fabric lost --asked tp_dst=80 --hops 1 --budget 9",
            0,
        ),
        ("list f.fabric lost --hops 17", 2),
        ("list f.fabric lost --budget 1", 2),
        ("list newer.fabric lost", 2),
        ("list newer.fabric 0", 2),
        ("list newer.fabric 2", 0),
        ("verdict newer.fabric 1", 0),
        ("verdict newer.fabric 2", 1),
        ("verdict newer.fabric 0", 2),
        ("verdict f.fabric 0", 2),
        ("verdict f.fabric lost", 2),
        ("gate newer.fabric 1", 0),
        ("gate newer.fabric 2", 1),
        ("audit newer.fabric", 1),
        ("audit newer.fabric --asked tp_dst=1", 0),
        ("run newer.fabric 1 any", 0),
        ("show newer.fabric", 0),
        ("dot newer.fabric 2", 0),
        ("dot f.fabric 0", 2),
        ("run f.fabric 1 any", 0),
        ("run f.fabric 5 any", 2),
        ("audit f.fabric", 1),
        ("audit f.fabric --asked tp_dst=1 --jobs 1", 0),
        ("audit f.fabric --budget 1", 2),
        ("audit f.fabric --hops 0", 2),
        ("show f.fabric", 0),
        ("show f.txt", 2),
        ("dot f.fabric", 0),
        ("dot f.fabric 2", 0),
        ("dot f.fabric 5", 2),
    ] {
        let ran = ran(&folder, line);
        assert_eq!(ran.status, status, "{line}");
        assert!(!ran.out.is_empty() || !ran.err.is_empty(), "{line}");
    }
}

/// F under OpenFlow 1.3 as `newer.fabric`.
fn with_newer(folder: &Path) {
    fs::write(folder.join("newer.txt"), format!("openflow 1.3\n{F}")).unwrap();
    assert_eq!(ran(folder, "pack newer.txt newer.fabric").status, 0);
}

#[test]
fn bad_use_is_told() {
    let folder = with_f("bad-use");
    for (line, said) in [
        ("", "there is no command ''"),
        ("-j", "there is no command '-j'"),
        ("vrdict f.fabric 2", "there is no command 'vrdict'"),
        ("verdict", "a fabric file is missing"),
        ("verdict f.fabric", "a target port is missing"),
        ("dot f.fabric --hops 3", "a target port is missing"),
        ("verdict f.fabric two", "a target port: 'two' is no number"),
        ("verdict f.fabric +2", "a target port: '+2' is no number"),
        ("list f.fabric", "a target port or 'lost' is missing"),
        (
            "list f.fabric Lost",
            "a target port or 'lost': 'Lost' is no number",
        ),
        ("list f.fabric lost 2", "'2' is one argument too many"),
        ("list f.fabric lost --jobs 2", "--jobs is no option of list"),
        (
            "verdict f.fabric lost",
            "a target port: only list takes 'lost'",
        ),
        (
            "gate f.fabric lost",
            "a target port: only list takes 'lost'",
        ),
        ("dot f.fabric lost", "a target port: only list takes 'lost'"),
        (
            "run f.fabric lost any",
            "a start port: only list takes 'lost'",
        ),
        ("verdict f.fabric 2 3", "'3' is one argument too many"),
        ("verdict f.fabric 2 --fast", "there is no option '--fast'"),
        ("verdict f.fabric 2 --hops", "--hops needs a value"),
        (
            "verdict f.fabric 2 --hops 1 --hops=2",
            "--hops stands there twice",
        ),
        ("verdict f.fabric 2 --hops x", "--hops: 'x' is no number"),
        (
            "verdict f.fabric 2 --jobs 2",
            "--jobs is no option of verdict",
        ),
        (
            "verdict f.fabric 2 --asked tp_dst=x",
            "--asked, column 8: 'x' is no tp_dst",
        ),
        (
            "run f.fabric 1 tp_dst=1/0x3",
            "header, column 1: tp_dst has a mask: a packet has one value",
        ),
        (
            "run f.fabric 1 any --budget 3",
            "--budget is no option of run",
        ),
        ("show f.fabric --jobs 1", "--jobs is no option of show"),
    ] {
        let ran = ran(&folder, line);
        let expected = format!("mwishovala: {said}; see mwishovala --help\n");
        assert_eq!(
            (ran.err, ran.out.len(), ran.status),
            (expected, 0, 2),
            "{line}"
        );
    }
}

#[test]
fn refusals_are_told() {
    let folder = with_f("refusals");
    with_newer(&folder);
    fs::write(folder.join("short"), [1, 2, 3]).unwrap();
    fs::write(folder.join("version"), [2, 0, 3, 0x18, 0, 0, 0, 0x50]).unwrap();
    for (line, said) in [
        (
            "verdict f.fabric 3",
            "f.fabric: question 8: the target, port 3, is no edge port",
        ),
        (
            "verdict f.fabric 0",
            "f.fabric: question 8: target 0 is what is lost, which only a list can be asked about",
        ),
        (
            "gate f.fabric 0",
            "f.fabric: question 8: target 0 is what is lost, which only a list can be asked about",
        ),
        (
            "list newer.fabric lost",
            "newer.fabric: question 8: target 0 is what is lost, and under OpenFlow 1.3 nothing is: \
             what no entry takes is dropped, as its run says",
        ),
        (
            "list newer.fabric 9",
            "newer.fabric: question 8: the target, port 9, is no edge port",
        ),
        (
            "show version",
            "version: question 2: the start is of version 3, not 1 or 2",
        ),
        (
            "list f.fabric 2 --budget 1",
            "f.fabric: question 13: a budget of 1 units isn't enough; try a larger --budget, \
             or a narrower set, which verdict, list and audit take as --asked",
        ),
        (
            "run f.fabric 1 any --hops 0",
            "f.fabric: question 9: a hop limit of 0: it is 1 to 16",
        ),
        (
            "show short",
            "short: question 1: the file has 3 bytes, fewer than 8",
        ),
        (
            "show f.txt",
            "f.txt: question 2: word 0 is 0x65676465, which is no start; \
             it looks like text: pack it first",
        ),
    ] {
        let ran = ran(&folder, line);
        let expected = format!("mwishovala: {said}\n");
        assert_eq!(
            (ran.err, ran.out.len(), ran.status),
            (expected, 0, 2),
            "{line}"
        );
    }
}

#[test]
fn the_help_has_every_command_and_option() {
    let help = ran(&folder("help"), "--help");
    let options = "--asked --hops --budget --jobs --json --help --version".split(' ');
    let words = COMMANDS.into_iter().chain(options);
    for word in words.chain(["Exit status", "IPv4"]) {
        assert!(help.text().contains(word), "{word}");
    }
}

/// A wrong text leaves the file as it was, or not there.
#[test]
fn nothing_is_written_on_bad_input() {
    let folder = with_f("bad-text");
    fs::write(folder.join("bad.txt"), format!("{F}link 1 -> 5\n")).unwrap();
    let before = fs::read(folder.join("f.fabric")).unwrap();
    for (text, file) in [
        ("bad.txt", "f.fabric"),
        ("bad.txt", "new"),
        ("f.fabric", "new"),
    ] {
        assert_eq!(ran(&folder, &format!("pack {text} {file}")).status, 2);
    }
    assert_eq!(fs::read(folder.join("f.fabric")).unwrap(), before);
    assert!(!folder.join("new").exists());
    assert_eq!(
        ran(&folder, "pack bad.txt new").err,
        "mwishovala: bad.txt:5:6: question 6 at word 19: link 1→5 starts at an edge port\n"
    );
    assert_eq!(
        ran(&folder, "pack f.fabric new").err,
        "mwishovala: f.fabric: it isn't text (UTF-8)\n"
    );
}

#[test]
fn standard_input_and_output() {
    let folder = with_f("standard");
    let file = fs::read(folder.join("f.fabric")).unwrap();
    let packed = mwishovala(&folder, &["pack", "-", "-"], F.as_bytes());
    assert_eq!((&packed.out, packed.status), (&file, 0));
    let shown = mwishovala(&folder, &["show", "-"], &file);
    let again = mwishovala(&folder, &["pack", "-", "-"], &shown.out);
    assert_eq!(again.out, file);
    let wrong = mwishovala(&folder, &["verdict", "-", "2"], b"nonsense");
    assert!(wrong
        .err
        .starts_with("mwishovala: standard input: question 2"));
    let long = mwishovala(&folder, &["show", "-"], &vec![0; 17 << 20]);
    assert_eq!(long.err, "mwishovala: standard input: it is far too long\n");
}

/// The longest way that a packet can take is described hop by hop.
#[test]
fn a_way_of_sixteen_hops() {
    let folder = folder("deep-ring");
    let mut ring = deep_ring().fabric;
    ring.edges[0].group = 2;
    fs::write(folder.join("fabric"), write(&ring)).unwrap();
    let ran = ran(&folder, "verdict fabric 2");
    assert_eq!(ran.status, 1);
    assert!(ran
        .text()
        .contains("\n  hop 16: in at port 12, out at port 2, leaving the fabric\n"));
    let picture = self::ran(&folder, "dot fabric 2");
    assert!(picture.text().contains("label=\"hop 16: entry "));
}
