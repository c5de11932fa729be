//! The command where no entry takes a packet: which packets are lost, where, and
//! what a run says under each OpenFlow.

#[path = "common/asked.rs"]
mod asked;
#[path = "common/command.rs"]
mod command;
#[path = "common/json.rs"]
mod json;

use std::cell::Cell;
use std::fs;
use std::path::Path;

use asked::{answered, in_words, with};
use command::{folder, ran};
use json::Value;
use reference::file::write;
use reference::random::{any, cases};

/// The first switch rewrites, or copies, and sends on over a link; the second has
/// an entry for what it doesn't get. Nothing stands at edge port 2, which is named
/// as the word is.
const TWO_SWITCHES: &str = "\
    edge 1 group 9 admits any\n\
    edge 2 group 7 admits any\n\
    link 10 -> 11\n\
    entry 1 -> 10 priority 5 match nw_proto=tcp set dl_vlan=5\n\
    entry 1 -> drop priority 5 match nw_proto=tcp,nw_tos=4\n\
    entry 1 -> 10 priority 4 match nw_proto=udp copy\n\
    entry 1 -> drop priority 3 match any\n\
    entry 11 -> 2 priority 5 match nw_proto=icmp\n\
    name 2 lost\n\
    switch leaf 10 1\n";

/// The same under OpenFlow 1.3, in a folder that has the other.
fn with_newer(folder: &Path, text: &str) {
    fs::write(folder.join("newer.txt"), format!("openflow 1.3\n{text}")).unwrap();
    assert_eq!(ran(folder, "pack newer.txt newer").status, 0);
}

/// What the answer has before 'asked'.
fn told(folder: &Path, line: &str) -> String {
    let ran = ran(folder, line);
    assert_eq!((ran.status, &ran.err[..]), (0, ""), "{line}");
    let (told, _) = ran.text().split_once("\nasked\n").unwrap();
    told.into()
}

#[test]
fn what_is_lost_in_words() {
    let folder = with("lost-in-words", TWO_SWITCHES);
    assert_eq!(
        told(&folder, "list fabric lost --asked nw_proto=tcp,nw_tos=4"),
        "2 finds of packets that are lost, but only for headers nw_tos=4,nw_proto=6\n\
         \n\
         from         group  hops  entries             headers              lost at   headers then\n\
         2 (lost)     7      0     none: lost at once  nw_tos=4,nw_proto=6  2 (lost)  nw_tos=4,nw_proto=6\n\
         1 (on leaf)  9      1     0 (or 1)            nw_tos=4,nw_proto=6  11        dl_vlan=5,nw_tos=4,nw_proto=6\n\
         \n\
         or: of the same priority, and might take these packets too, or some of them\n"
    );
    assert_eq!(
        told(&folder, "list fabric lost --asked nw_dst=10.7.0.0/16,nw_proto=udp"),
        "2 finds of packets that are lost, but only for headers nw_dst=10.7.0.0/16,nw_proto=17\n\
         \n\
         from         group  hops  entries             headers                         lost at   headers then\n\
         2 (lost)     7      0     none: lost at once  nw_dst=10.7.0.0/16,nw_proto=17  2 (lost)  nw_dst=10.7.0.0/16,nw_proto=17\n\
         1 (on leaf)  9      1     2                   nw_src=10.7.0.0/16,nw_proto=17  11        within nw_src=10.7.0.0/16,nw_dst=10.7.0.0/16,nw_proto=17\n\
         \n\
         within: where nw_src was copied over nw_dst, only headers of the set in which both have the same\n"
    );
    // All of a copied address is known.
    let whole = told(
        &folder,
        "list fabric lost --asked nw_dst=10.7.0.2,nw_proto=udp",
    );
    assert!(whole.contains("  11        nw_src=10.7.0.2,nw_dst=10.7.0.2,nw_proto=17\n"));
    assert!(!whole.contains("within"));
}

/// A port is asked about by its number, whatever it is named.
#[test]
fn a_port_that_is_named_lost() {
    let folder = with("named-lost", TWO_SWITCHES);
    let by_number = told(&folder, "list fabric 2");
    assert!(
        by_number.starts_with("nothing gets out at port 2 (lost)"),
        "{by_number}"
    );
    let lost = told(&folder, "list fabric lost");
    assert!(lost.contains(" finds of packets that are lost\n"));
    assert_eq!(told(&folder, "list fabric 0"), lost);
    assert_eq!(
        ran(&folder, "verdict fabric lost").err,
        "mwishovala: a target port: only list takes 'lost'; see mwishovala --help\n"
    );
}

#[test]
fn nothing_is_lost() {
    let text = "edge 1 group 9 admits any\nentry 1 -> drop priority 1 match any\n";
    let folder = with("nothing-lost", text);
    assert_eq!(told(&folder, "list fabric lost"), "nothing is lost\n");
    assert_eq!(
        told(&folder, "list fabric lost --hops 2 --asked tp_dst=80"),
        "nothing is lost, but only for headers tp_dst=80 and after fewer than 2 hops\n"
    );
    let answer = answered(&folder, "list fabric lost --json");
    assert_eq!(answer.get("finds"), Some(&Value::List(vec![])));
}

/// A limit of as many hops as links lead packets on says nothing of them there.
#[test]
fn links_that_lead_further() {
    let folder = with("lost-further", TWO_SWITCHES);
    for (hops, said, further) in [
        (
            1,
            "  hops     fewer than 1; links could lead further\n",
            true,
        ),
        (2, "  hops     fewer than 2\n", false),
        (16, "  hops     fewer than 16\n", false),
    ] {
        let line = format!("list fabric lost --hops {hops}");
        assert!(ran(&folder, &line).text().contains(said), "{hops}");
        let answer = answered(&folder, &format!("{line} --json"));
        assert_eq!(answer.get("further"), Some(&Value::Truth(further)));
    }
}

/// The same packet, lost and dropped; and one that an entry drops under both.
#[test]
fn a_run_says_why_a_packet_is_dropped() {
    let folder = with("miss-or-drop", TWO_SWITCHES);
    with_newer(&folder, TWO_SWITCHES);
    for (header, old, new, missed) in [
        (
            "nw_proto=tcp",
            "lost: no entry takes it at port 11, after 1 hop\n",
            "dropped: no entry takes it at port 11, after 1 hop; OpenFlow 1.3 drops it\n",
            true,
        ),
        (
            "nw_proto=9",
            "dropped: at port 1 (on leaf), with hop 1\n",
            "dropped: at port 1 (on leaf), with hop 1\n",
            false,
        ),
    ] {
        for (file, said) in [("fabric", old), ("newer", new)] {
            let line = format!("run {file} 1 {header}");
            let text = told(&folder, &line);
            assert!(text.starts_with(said), "{text}");
            let answer = answered(&folder, &format!("{line} --json"));
            assert_eq!(answer.get("missed"), Some(&Value::Truth(missed)));
            let fate = said.split(':').next();
            assert_eq!(answer.get("fate").and_then(Value::text), fate);
        }
    }
    // Where it starts, without a hop.
    let at_once = told(&folder, "run newer 2 any");
    let said = "dropped: no entry takes it at port 2 (lost), after 0 hops; OpenFlow 1.3 drops it\n";
    assert!(
        at_once.starts_with(said) && !at_once.contains("this way"),
        "{at_once}"
    );
    // The limit's hops are made.
    for file in ["fabric", "newer"] {
        let travelling = told(&folder, &format!("run {file} 1 nw_proto=tcp --hops 1"));
        assert!(travelling.starts_with("still travelling: to port 11, after 1 hop\n"));
    }
}

/// What else is asked gets the same answer under both, but for the file's name,
/// digest and OpenFlow.
#[test]
fn verdicts_are_the_same_under_both() {
    let folder = folder("both-openflows");
    cases(9_700_000, 40, |rng| {
        let fabric = any(rng);
        let mut file = write(&fabric);
        file[3] &= !(1 << 3);
        fs::write(folder.join("old"), &file).unwrap();
        file[3] |= 1 << 3;
        fs::write(folder.join("new"), &file).unwrap();
        let port = rng.pick(&fabric.edges).map_or(1, |edge| edge.port);
        for line in [
            format!("verdict FILE {port} --budget 3000 --json"),
            format!("list FILE {port} --budget 3000 --json"),
            "audit FILE --budget 300 --json".into(),
        ] {
            let of = |file: &str| answered(&folder, &line.replace("FILE", file));
            let [old, new] = ["old", "new"].map(of);
            let question = |answer: &Value| answer.at(&["refused", "question"]).cloned();
            assert_eq!(question(&old), question(&new), "{line}");
            assert_eq!(besides(old), besides(new), "{line}");
        }
        let of = |file: &str| ran(&folder, &format!("gate {file} {port} --budget 3000")).status;
        assert_eq!(of("old"), of("new"));
        assert_eq!(ran(&folder, "list new lost --budget 3000").status, 2);
    });
}

/// What an answer has besides the fabric, and a reason that may name its file.
fn besides(answer: Value) -> Vec<(String, Value)> {
    let Value::Object(mut members) = answer else {
        panic!("{answer:?} is no object");
    };
    members.retain(|(name, _)| name != "fabric" && name != "refused");
    members
}

/// Packets of finds of random fabrics are sent: they are lost where the list says.
#[test]
fn what_is_lost_is_lost_in_a_run() {
    let folder = folder("lost-runs");
    let followed = Cell::new(0);
    cases(9_800_000, 60, |rng| {
        let mut file = write(&any(rng));
        file[3] &= !(1 << 3);
        fs::write(folder.join("fabric"), &file).unwrap();
        let answer = answered(&folder, "list fabric lost --budget 20000 --json");
        let finds = answer.get("finds").and_then(Value::list).unwrap_or(&[]);
        for _ in 0..4 {
            if let Some(find) = rng.pick(finds) {
                followed.set(followed.get() + u32::from(is_lost(&folder, find)));
            }
        }
    });
    let replayed = std::env::var_os("SEED").is_some();
    assert!(replayed || followed.get() > 50, "{followed:?}");
}

/// Whether its lowest header's run isn't tied before; if so, it agrees.
fn is_lost(folder: &Path, find: &Value) -> bool {
    let port = find.get("port").and_then(Value::number).unwrap();
    let words = find
        .at(&["headers", "value"])
        .and_then(Value::list)
        .unwrap();
    let words: Vec<&str> = words.iter().filter_map(Value::text).collect();
    let header = format!(
        "nw_src=0x{},nw_dst=0x{},tp_src=0x{},tp_dst=0x{},dl_vlan=0x{},nw_tos=0x{},nw_proto=0x{}",
        words[0],
        words[1],
        &words[2][..4],
        &words[2][4..],
        &words[3][..4],
        &words[3][4..6],
        &words[3][6..],
    );
    let run = answered(folder, &format!("run fabric {port} {header} --json"));
    if run.get("fate").and_then(Value::text) == Some("tied") {
        return false;
    }
    assert_eq!(run.get("fate").and_then(Value::text), Some("lost"));
    assert_eq!(run.get("port"), find.get("lost_at"));
    assert_eq!(run.get("hops"), find.get("hops"));
    // And it is in the set that the find says it has then.
    let then = find.at(&["then", "text"]).and_then(Value::text).unwrap();
    let then: mwishovala::HeaderSet = then.parse().unwrap();
    let ended: mwishovala::HeaderSet = in_words(run.get("header").unwrap()).parse().unwrap();
    assert!(ended.is_within(&then), "{ended} isn't in {then}");
    true
}
