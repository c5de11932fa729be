//! The command's audit, against the reference.

#[path = "common/command.rs"]
mod command;
#[path = "common/json.rs"]
mod json;

use std::fs;
use std::net::Ipv4Addr;

use command::{folder, ran};
use json::{parse, Value};
use reference::file::{to_le_words, write};
use reference::random::{any, campus, cases};
use reference::{Fabric, Query};

/// The audit's rows, against the reference's verdicts and lists.
#[test]
fn audits_agree_with_the_reference() {
    let folder = folder("audit");
    cases(9_200_000, 60, |rng| {
        let fabric = any(rng);
        fs::write(folder.join("fabric"), write(&fabric)).unwrap();
        let jobs = rng.between(1, 3);
        // So that some targets are refused, and some are not.
        let budget = [2, 30, 3000][rng.below(3)];
        let ran = ran(
            &folder,
            &format!("audit fabric --json --budget {budget} --jobs {jobs}"),
        );
        let answer = parse(ran.text()).unwrap();
        let rows = match answer.get("targets") {
            Some(rows) => rows.list().unwrap(),
            None => {
                assert!(fabric.edges.is_empty() && answer.get("refused").is_some());
                assert_eq!(ran.status, 2);
                return;
            }
        };
        assert_eq!(rows.len(), fabric.edges.len());
        for (row, edge) in rows.iter().zip(&fabric.edges) {
            check(&fabric, edge.port, budget, row);
        }
        assert_eq!(Some(ran.status), rows.iter().map(status).max());
    });
}

/// What a row makes of the whole audit's status, the worst of all rows.
fn status(row: &Value) -> i32 {
    match row.get("verdict").and_then(Value::text) {
        Some("isolated") => 0,
        Some("reached") => 1,
        _ => 2,
    }
}

fn number_at(row: &Value, names: &[&str]) -> u64 {
    row.at(names).and_then(Value::number).unwrap()
}

fn check(fabric: &Fabric, port: u16, budget: u32, row: &Value) {
    let query = Query {
        port: u32::from(port),
        limit: 16,
        budget,
        care: [0; 4],
        value: [0; 4],
    };
    let group = fabric.edge(query.port).unwrap().group;
    assert_eq!(number_at(row, &["target"]), u64::from(port));
    assert_eq!(number_at(row, &["group"]), u64::from(group));
    let file = write(fabric);
    let mut area = [0; 96];
    match reference::verdict(&file, &mut area, &query) {
        13 => {
            assert_eq!(number_at(row, &["refused", "question"]), 13);
            assert_eq!(row.get("verdict"), None);
        }
        _ => check_verdict(row, &to_le_words(&area)),
    }
    match senders(fabric, &file, &query) {
        None => assert_eq!(number_at(row, &["senders", "refused", "question"]), 13),
        Some([foreign, own]) => {
            for (name, expected) in [("foreign", foreign), ("own", own)] {
                let ports = row.at(&["senders", name]).and_then(Value::list).unwrap();
                let ports: Vec<u64> = ports.iter().filter_map(Value::number).collect();
                assert_eq!(
                    ports,
                    expected.into_iter().map(u64::from).collect::<Vec<_>>()
                );
            }
        }
    }
}

/// A row's verdict, and its packet and way if there is one.
fn check_verdict(row: &Value, words: &[u32]) {
    let name = ["isolated", "reached"][words[0] as usize];
    assert_eq!(row.get("verdict").and_then(Value::text), Some(name));
    assert_eq!(number_at(row, &["units"]), u64::from(words[1]));
    if name == "isolated" {
        assert_eq!(row.get("header"), None);
        return;
    }
    assert_eq!(number_at(row, &["port"]), u64::from(words[2]));
    assert_eq!(number_at(row, &["hops"]), u64::from(words[3]));
    let (ports, other) = (words[6], words[7]);
    for (name, address) in [("nw_src", words[4]), ("nw_dst", words[5])] {
        let text = row.at(&["header", name]).and_then(Value::text);
        assert_eq!(text, Some(Ipv4Addr::from(address).to_string().as_str()));
    }
    for (name, value) in [
        ("tp_src", ports >> 16),
        ("tp_dst", ports & 0xffff),
        ("dl_vlan", other >> 16),
        ("nw_tos", other >> 8 & 0xff),
        ("nw_proto", other & 0xff),
    ] {
        assert_eq!(number_at(row, &["header", name]), u64::from(value));
    }
    let path = row.get("path").and_then(Value::list).unwrap();
    let entries: Vec<u64> = path.iter().map(|hop| number_at(hop, &["entry"])).collect();
    let expected = words[8..].iter().take(words[3] as usize);
    assert_eq!(
        entries,
        expected.map(|&entry| u64::from(entry)).collect::<Vec<_>>()
    );
}

/// Who sends foreign packets there, and who own ones, by the reference's list.
fn senders(fabric: &Fabric, file: &[u8], query: &Query) -> Option<[Vec<u16>; 2]> {
    let mut area = vec![0; 8 << 20];
    let code = reference::list(file, &mut area, query);
    let written = 4 * (code / 256) as usize;
    let words = match code % 256 {
        0 => to_le_words(&area[..written]),
        _ => return None,
    };
    let target = fabric.edge(query.port)?;
    let (mut foreign, mut own) = (Vec::new(), Vec::new());
    let mut rest = &words[..];
    while let [first, ..] = rest {
        let set_at = 1 + (first >> 12 & 0xffff) as usize;
        let four = |at: usize| reference::set::from_words(rest[at..at + 4].try_into().unwrap());
        let set = reference::Set {
            care: four(set_at),
            value: four(set_at + 4),
        };
        let edge = fabric.edge(first & 0xfff)?;
        let same_group = edge.group == target.group;
        let outside = set.carve(&edge.admitted).next().is_some();
        if !same_group || outside {
            foreign.push(edge.port);
        }
        if same_group && set.meets(&edge.admitted) {
            own.push(edge.port);
        }
        rest = &rest[set_at + 8..];
    }
    for ports in [&mut foreign, &mut own] {
        ports.sort_unstable();
        ports.dedup();
    }
    Some([foreign, own])
}

/// 64 edges and some 500 entries.
#[test]
fn a_campus_is_audited() {
    let folder = folder("campus");
    let mut fabric = campus().fabric;
    // The campus has 48 edges; 16 more that nothing leads to.
    let more = (300..316).map(|port| reference::Edge {
        group: 1,
        port,
        admitted: reference::Set::ALL_WILD,
    });
    fabric.edges.extend(more);
    fs::write(folder.join("fabric"), write(&fabric)).unwrap();
    let ran = ran(&folder, "audit fabric");
    assert_eq!(ran.status, 0, "{}", ran.err);
    assert!(ran
        .text()
        .starts_with("64 edge ports: 64 isolated, 0 reached, 0 refused\n"));
}
