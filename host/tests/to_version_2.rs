//! A fabric of version 1 made one of version 2: the same answers, and a file that
//! is written whole or not at all.

#[path = "common/command.rs"]
mod command;
mod common;

use std::fs;

use command::{folder, mwishovala, ran, with_f, F};
use common::{to_host, Seen};
use mwishovala::text::{pack, show};
use mwishovala::{
    accept, list_growing, run, verdict, Fabric, Find, Header, HeaderSet, Query, Verdict, Version,
};
use reference::file::write;
use reference::random::{any, cases, list_query, packet, query};

/// The file in version 2, if it has room for its entries.
fn wide(file: &[u8]) -> Option<Vec<u8>> {
    let wide: Fabric<8> = Fabric::read(file).unwrap().resized().unwrap();
    let is_small = wide.entries.len() <= Version::V2.most_entries();
    let wide = wide.to_bytes().unwrap();
    assert_eq!(accept(&wide).is_ok(), is_small);
    is_small.then_some(wide)
}

fn narrow(header: &Header<8>) -> Header {
    HeaderSet::only(*header)
        .value
        .first_chunk()
        .map(|words| Header(*words))
        .unwrap()
}

/// Verdicts: units, port, hops, header and entries.
#[test]
fn the_same_verdicts() {
    let [isolated, reached, refused]: [Seen; 3] = Default::default();
    cases(14_000_000, 2000, |rng| {
        let made = any(rng);
        let file = write(&made);
        let Some(wide) = wide(&file) else { return };
        let asked = to_host(&query(rng, &made, 5000));
        match (
            verdict(&file, &asked),
            verdict(&wide, &asked.resized::<8>().unwrap()),
        ) {
            (Ok(Verdict::Isolated { units, .. }), Ok(Verdict::Isolated { units: other, .. })) => {
                assert_eq!(units, other);
                isolated.add(1);
            }
            (
                Ok(Verdict::Reached {
                    units,
                    port,
                    hops,
                    header,
                    entries,
                    ..
                }),
                Ok(Verdict::Reached {
                    units: other_units,
                    port: other_port,
                    hops: other_hops,
                    header: other_header,
                    entries: other_entries,
                    ..
                }),
            ) => {
                assert_eq!((units, port, hops), (other_units, other_port, other_hops));
                assert_eq!((header, entries), (narrow(&other_header), other_entries));
                assert_eq!(other_header.0[4..], [0; 4]);
                reached.add(1);
            }
            (Err(one), Err(other)) => {
                assert_eq!(one, other);
                refused.add(1);
            }
            (one, other) => panic!("{one:?}, but {other:?}"),
        }
    });
    isolated.at_least(100);
    reached.at_least(100);
    refused.at_least(100);
}

/// More than any of these lists takes.
const MOST_AREA: usize = 1 << 26;

/// Lists, also of what is lost: the same finds, wild in what is more.
#[test]
fn the_same_lists() {
    let found = Seen::default();
    cases(14_100_000, 1500, |rng| {
        let made = any(rng);
        let file = write(&made);
        let Some(wide) = wide(&file) else { return };
        let asked = to_host(&list_query(rng, &made, 5000));
        let (mut area, mut wide_area) = (Vec::new(), Vec::new());
        let wide_asked = asked.resized::<8>().unwrap();
        let wide_finds = list_growing(&wide, &mut wide_area, MOST_AREA, &wide_asked);
        match (
            list_growing(&file, &mut area, MOST_AREA, &asked),
            wide_finds,
        ) {
            (Ok(finds), Ok(wide_finds)) => {
                let finds: Vec<Find> = finds.collect();
                let wide_finds: Vec<Find<8>> = wide_finds.collect();
                assert_eq!(finds.len(), wide_finds.len());
                for (find, wide) in finds.iter().zip(&wide_finds) {
                    assert_eq!((find.port, find.hops), (wide.port, wide.hops));
                    assert_eq!(find.entries, wide.entries);
                    assert_eq!(Some(find.set), wide.set.resized());
                }
                found.add(finds.len());
            }
            (Err(one), Err(other)) => assert_eq!(one, other),
            (one, other) => panic!("{one:?}, but {other:?}"),
        }
    });
    found.at_least(1000);
}

/// Runs, whatever the further words are: they go along.
#[test]
fn the_same_runs() {
    let ran = Seen::default();
    cases(14_200_000, 2000, |rng| {
        let made = any(rng);
        let file = write(&made);
        let Some(wide) = wide(&file) else { return };
        let asked = packet(rng, &made);
        let further: [u32; 4] = std::array::from_fn(|_| rng.draw() as u32 & 0xffff_ff00);
        let header = Header([asked.value, further].concat().try_into().unwrap());
        let run_wide = run(&wide, asked.port, header, asked.limit);
        match (
            run(&file, asked.port, Header(asked.value), asked.limit),
            run_wide,
        ) {
            (Ok(run), Ok(wide)) => {
                assert_eq!(
                    (run.fate, run.port, run.hops),
                    (wide.fate, wide.port, wide.hops)
                );
                assert_eq!(
                    (run.header, run.entries),
                    (narrow(&wide.header), wide.entries)
                );
                assert_eq!(wide.header.0[4..], further);
                ran.add(1);
            }
            (Err(one), Err(other)) => assert_eq!(one, other),
            (one, other) => panic!("{one:?}, but {other:?}"),
        }
    });
    ran.at_least(500);
}

/// All is kept: edges, links, entries, OpenFlow, and names beside the file.
#[test]
fn what_is_written() {
    let folder = with_f("widened");
    for (text, names) in [
        (F.to_string(), ""),
        (format!("openflow 1.3\nlink 10 -> 11\n{F}"), ""),
        (
            format!("{F}name 1 a\nswitch b 1 2\n"),
            "name 1 a\nswitch b 1 2\n",
        ),
    ] {
        for file in ["wide", "wide.names", "narrow.names"] {
            let _ = fs::remove_file(folder.join(file));
        }
        fs::write(folder.join("text"), &text).unwrap();
        assert_eq!(ran(&folder, "pack text narrow").status, 0);
        let widened = ran(&folder, "widen narrow wide");
        let file = fs::read(folder.join("wide")).unwrap();
        assert_eq!((widened.status, &widened.err[..]), (0, ""));
        assert!(
            widened.text().starts_with("widened wide, sha256 "),
            "{}",
            widened.text()
        );
        assert_eq!(
            Some(&file),
            wide(&fs::read(folder.join("narrow")).unwrap()).as_ref()
        );
        let kept = fs::read_to_string(folder.join("wide.names"));
        assert_eq!(kept.unwrap_or_default(), names);
        assert_eq!(pack(&format!("version 2\n{text}")).unwrap(), file);
        let shown = ran(&folder, "show wide");
        let narrow = Fabric::read(&fs::read(folder.join("narrow")).unwrap()).unwrap();
        let expected = show(&narrow).replacen('\n', "\nversion 2\n", 1) + names;
        assert!(shown.text().ends_with(&expected), "{}", shown.text());
        assert_eq!(ran(&folder, "widen narrow -").out, file);
    }
    let file = fs::read(folder.join("narrow")).unwrap();
    assert_eq!(mwishovala(&folder, &["widen", "-", "new"], &file).status, 0);
    assert_eq!(fs::read(folder.join("new")).unwrap(), wide(&file).unwrap());
}

/// A text with so many entries, 64 at an in-port.
fn many_entries(number: usize) -> String {
    let entry = |number| format!("entry {} -> drop priority 1 match any\n", 1 + number / 64);
    (0..number).map(entry).collect()
}

/// Status 2, a reason, and nothing is written.
#[test]
fn what_is_refused() {
    let folder = with_f("not-widened");
    let full = Version::V2.most_entries();
    for number in [full, full + 1, Version::V1.most_entries()] {
        fs::write(folder.join("text"), many_entries(number)).unwrap();
        assert_eq!(
            ran(&folder, &format!("pack text {number}.fabric")).status,
            0
        );
    }
    assert_eq!(ran(&folder, "widen f.fabric wide").status, 0);
    assert_eq!(ran(&folder, "widen 400.fabric fits").status, 0);
    fs::write(folder.join("short"), [1, 2, 3]).unwrap();
    fs::write(folder.join("two.fabric"), pack("version 2").unwrap()).unwrap();
    for (line, why) in [
        ("widen wide new", "wide: it is of version 2 already"),
        (
            "widen two.fabric new",
            "two.fabric: it is of version 2 already",
        ),
        (
            "widen 401.fabric new",
            "401.fabric: it has 401 entries, and version 2 has at most 400",
        ),
        (
            "widen 512.fabric -",
            "512.fabric: it has 512 entries, and version 2 has at most 400",
        ),
        (
            "widen short new",
            "short: question 1: the file has 3 bytes, fewer than 8",
        ),
        (
            "widen nowhere new",
            "nowhere: No such file or directory (os error 2)",
        ),
        (
            "widen f.fabric",
            "a fabric file to write is missing; see mwishovala --help",
        ),
        (
            "widen f.fabric f.fabric",
            "f.fabric: it is the fabric itself, which would be lost",
        ),
        (
            "widen f.fabric ./f.fabric",
            "./f.fabric: it is the fabric itself, which would be lost",
        ),
        (
            "widen f.fabric new new",
            "'new' is one argument too many; see mwishovala --help",
        ),
        (
            "widen f.fabric new --json",
            "--json is no option of widen; see mwishovala --help",
        ),
    ] {
        let ran = ran(&folder, line);
        let message = match line.ends_with("--json") {
            true => String::from_utf8(ran.out.clone()).unwrap(),
            false => ran.err.clone(),
        };
        assert!(message.contains(why), "{line}: {message}");
        assert_eq!(ran.status, 2, "{line}");
        assert!(!folder.join("new").exists(), "{line}");
    }
    assert_eq!(fs::read(folder.join("f.fabric")).unwrap(), pack(F).unwrap());
}

/// The old file stays whole where the new one can't be written.
#[test]
fn a_full_disk() {
    let folder = with_f("widened-full");
    fs::write(folder.join("old"), "old").unwrap();
    let full = "trap '' XFSZ; ulimit -f 0; exec \"$0\" widen f.fabric old";
    let ran = command::in_a_shell(&folder, full);
    assert_eq!(ran.status, 2, "{}", ran.err);
    assert_eq!(fs::read(folder.join("old")).unwrap(), b"old");
    assert_eq!(fs::read_dir(&folder).unwrap().count(), 3);
}

/// The commands answer the same of both, but for what an answer is about.
#[test]
fn the_commands_say_the_same() {
    let folder = folder("both-say");
    fs::write(folder.join("text"), format!("{F}name 2 storage-a\n")).unwrap();
    for line in ["pack text one", "widen one two"] {
        assert_eq!(ran(&folder, line).status, 0);
    }
    let same = |line: &str| {
        let [one, two] = ["one", "two"].map(|file| ran(&folder, &line.replace("FABRIC", file)));
        assert_eq!(one.status, two.status, "{line}");
        let first = |text: &str| text.lines().next().unwrap_or_default().to_string();
        (first(one.text()), first(two.text()))
    };
    for line in [
        "verdict FABRIC 2",
        "list FABRIC 2",
        "list FABRIC lost",
        "audit FABRIC",
    ] {
        let (one, two) = same(line);
        assert_eq!(one, two, "{line}");
    }
    let (one, two) = same("run FABRIC 1 nw_dst=10.0.0.2");
    assert_eq!(one, two);
    let (one, two) = same("verdict FABRIC 1");
    assert_eq!(one.replace("IPv4 packet", "frame"), two);
    let (one, two) = same("gate FABRIC 1");
    let said = |line: &str| {
        line.split(", sha256 ")
            .next()
            .unwrap_or_default()
            .to_string()
    };
    assert_eq!(said(&one), "isolated: port 1, every IPv4 header, 16 hops");
    assert_eq!(
        said(&two),
        "isolated: port 1, every Ethernet and IPv4 header, 16 hops"
    );
    let whole = Query::all_wild(1).resized::<8>().unwrap();
    let two = fs::read(folder.join("two")).unwrap();
    assert!(matches!(
        verdict(&two, &whole),
        Ok(Verdict::Isolated { .. })
    ));
}

/// A fabric with a tie, a rewrite and a deny on Ethernet's fields.
const ETHERNET: &str = "version 2
edge 1 group 9 admits dl_src=02:00:00:00:09:00/ff:ff:ff:ff:ff:00
edge 2 group 7 admits any
entry 1 -> 2 priority 10 match dl_dst=02:00:00:00:07:02 set dl_dst=02:00:00:00:07:03,dl_vlan_pcp=5
entry 1 -> drop priority 10 match dl_type=arp
entry 1 -> drop priority 20 match dl_type=ip
";

/// What each command says of Ethernet's fields, and its status.
#[test]
fn commands_on_ethernets_fields() {
    let folder = folder("ethernet");
    fs::write(folder.join("text"), ETHERNET).unwrap();
    assert_eq!(ran(&folder, "pack text f").status, 0);
    for (line, said, status) in [
        ("verdict f 2", "  dl_dst       02:00:00:00:07:02\n", 1),
        (
            "verdict f 2 --asked dl_type=ip",
            "isolated, but only for headers dl_type=0x0800",
            0,
        ),
        (
            "verdict f 2 --asked dl_dst=02:00:00:00:07:02",
            "isolated, but only for",
            0,
        ),
        (
            "verdict f 2 --asked dl_vlan_pcp=5,dl_type=arp",
            "reached: a foreign packet",
            1,
        ),
        (
            "verdict f 2",
            "rewrite dl_dst=02:00:00:00:07:03,dl_vlan_pcp=5\n",
            1,
        ),
        ("gate f 2", "reached: port 2, from port 1", 1),
        (
            "gate f 1",
            "isolated: port 1, every Ethernet and IPv4 header, 16 hops",
            0,
        ),
        (
            "list f 2 --asked dl_type=ipv6",
            "dl_dst=02:00:00:00:07:02,dl_type=0x86dd\n",
            0,
        ),
        ("list f lost --asked dl_type=ipv6", "dl_type=0x86dd", 0),
        (
            "list f lost --asked dl_type=arp",
            "none: lost at once  dl_type=0x0806  2 ",
            0,
        ),
        ("run f 1 dl_type=ip", "dropped: at port 1, with hop 1", 0),
        (
            "run f 1 dl_type=ipv6",
            "lost: no entry takes it at port 1",
            0,
        ),
        (
            "run f 1 dl_type=arp,dl_dst=02:00:00:00:07:02",
            "tied: entries 0 and 1",
            0,
        ),
        (
            "audit f --asked dl_type=ip",
            "2 edge ports, but only for headers dl_type=0x0800",
            0,
        ),
        ("audit f", "either might take nw_src=0.0.0.0", 1),
        (
            "audit f",
            "dl_dst=02:00:00:00:07:02,dl_type=0x0806,dl_vlan_pcp=0",
            1,
        ),
        (
            "show f",
            "edge 1 group 9 admits dl_src=02:00:00:00:09:00/ff:ff:ff:ff:ff:00\n",
            0,
        ),
        ("dot f", "0 (set dl_dst=02:00:00:00:07:03,dl_vlan_pcp=5)", 0),
        (
            "dot f 2 --asked dl_type=ip",
            "isolated, but only for headers dl_type=0x0800",
            0,
        ),
        (
            "list f 2 --json",
            "\"dl_dst\":{\"value\":\"02:00:00:00:07:02\"",
            0,
        ),
        (
            "run f 1 dl_type=ip --json",
            "\"dl_type\":2048,\"dl_vlan_pcp\":0}",
            0,
        ),
        ("audit f --json", "\"version\":2,\"openflow\":\"1.0\"}", 1),
    ] {
        let ran = ran(&folder, line);
        assert_eq!((&ran.err[..], ran.status), ("", status), "{line}");
        assert!(ran.text().contains(said), "{line}: {}", ran.text());
    }
}

/// Of a fabric of version 1 nothing is asked that it can't say.
#[test]
fn ethernets_fields_of_version_1() {
    let folder = with_f("no-ethernet");
    for (command, field) in [
        (
            "verdict f.fabric 1 --asked tp_dst=80,FIELD",
            "dl_src=02:00:00:00:00:01",
        ),
        ("list f.fabric 2 --asked FIELD", "dl_dst=0x0"),
        ("list f.fabric lost --asked FIELD", "dl_type=ip"),
        ("audit f.fabric --asked FIELD", "dl_type=0x0/0x1"),
        ("dot f.fabric 1 --asked FIELD", "dl_vlan_pcp=0"),
        ("run f.fabric 1 nw_proto=tcp,FIELD", "dl_vlan_pcp=0"),
    ] {
        let ran = ran(&folder, &command.replace("FIELD", field));
        let name = field.split('=').next().unwrap_or_default();
        let message = format!(
            "mwishovala: f.fabric: {name} is no field of version 1: widen makes version 2 of it\n"
        );
        assert_eq!(
            (&ran.err[..], ran.status, ran.out.len()),
            (&message[..], 2, 0)
        );
    }
    let json = ran(&folder, "verdict f.fabric 1 --asked dl_type=ip --json");
    assert_eq!(json.status, 2);
    assert!(
        json.text().contains("\"refused\":{\"question\":null"),
        "{}",
        json.text()
    );
    // Where no bit of it counts, nothing is left out.
    let any = "verdict f.fabric 1 --asked dl_type=0x0/0x0";
    assert!(ran(&folder, any).text().starts_with("isolated: "));
}
