//! Beside a packet that no host sends stands one that can be sent, and beside a
//! hop limit whether links could lead further.

#[path = "common/asked.rs"]
mod asked;
#[path = "common/command.rs"]
mod command;
#[path = "common/json.rs"]
mod json;

use std::cell::Cell;

use asked::{answered, in_words, judged, with};
use command::{folder, ran};
use json::Value;
use reference::random::{any, cases};

const EDGES: &str = "edge 1 group 7 admits any\nedge 2 group 9 admits any\n";

#[test]
fn what_cannot_be_sent_is_said() {
    let folder = with(
        "instead",
        &format!("{EDGES}entry 1 -> 2 priority 1 match nw_dst=10.0.0.2,tp_dst=80\n"),
    );
    let text = ran(&folder, "verdict fabric 2");
    assert!(text.text().contains(
        "\nno host sends this packet as it is\n  \
         nw_proto 0: only a frame made by hand has it\n  \
         tp_dst 80: only tcp, udp and icmp have it\n\
         one that can, by the same way\n  \
         nw_src    0.0.0.0\n  nw_dst    10.0.0.2\n  tp_src    0\n  tp_dst    80\n  \
         dl_vlan   65535\n  nw_tos    0\n  nw_proto  6\n"
    ));
    for line in ["verdict fabric 2 --json", "audit fabric --json"] {
        let answer = answered(&folder, line);
        let rows = answer.get("targets").and_then(Value::list);
        let judged = rows.map_or(&answer, |rows| &rows[1]);
        assert_eq!(judged.at(&["header", "nw_proto"]), Some(&Value::Number(0)));
        assert_eq!(
            judged.at(&["sendable", "nw_proto"]),
            Some(&Value::Number(6))
        );
        assert_eq!(
            judged.get("misfits").and_then(Value::list).unwrap().len(),
            2
        );
    }
}

#[test]
fn where_none_can_be_sent() {
    let folder = with(
        "none-instead",
        &format!("{EDGES}entry 1 -> 2 priority 1 match dl_vlan=5000\n"),
    );
    let text = ran(&folder, "verdict fabric 2");
    assert_eq!(text.status, 1);
    assert!(text.text().contains(
        "  dl_vlan 5000: a tag has 0 to 4095, and 65535 is no tag\n  \
         nw_proto 0: only a frame made by hand has it\nnone can that takes the same way\n"
    ));
    let answer = answered(&folder, "verdict fabric 2 --json");
    assert_eq!(answer.get("sendable"), Some(&Value::Null));
}

#[test]
fn a_packet_that_can_be_sent_stands_alone() {
    let folder = with(
        "as-it-is",
        &format!("{EDGES}entry 1 -> 2 priority 1 match dl_vlan=5,nw_proto=udp\n"),
    );
    assert!(!ran(&folder, "verdict fabric 2")
        .text()
        .contains("no host sends"));
    let answer = answered(&folder, "verdict fabric 2 --json");
    assert_eq!(answer.get("sendable"), answer.get("header"));
    assert_eq!(answer.get("misfits"), Some(&Value::List(vec![])));
}

/// The same find, traced back through a copy, a rewrite and a swap.
#[test]
fn what_can_be_sent_where_addresses_are_swapped() {
    let folder = with(
        "swapped-instead",
        &format!(
            "{EDGES}link 10 -> 11\nlink 20 -> 21\n\
             entry 1 -> 10 priority 1 match nw_dst=10.0.0.80,tp_dst=80 swap\n\
             entry 1 -> drop priority 2 match nw_src=10.7.0.0/24\n\
             entry 11 -> 20 priority 1 match nw_dst=10.7.0.0/16 copy set nw_src=10.7.0.9\n\
             entry 21 -> 2 priority 1 match any\n"
        ),
    );
    let asked = "--asked nw_src=10.7.0.9,nw_dst=10.0.0.80";
    let answer = answered(&folder, &format!("verdict fabric 2 {asked} --json"));
    let address = |header, field| answer.at(&[header, field]).and_then(Value::text);
    for header in ["header", "sendable"] {
        assert_eq!(address(header, "nw_src"), Some("10.7.128.0"));
        assert_eq!(address(header, "nw_dst"), Some("10.0.0.80"));
    }
    let protocol = |header| answer.at(&[header, "nw_proto"]);
    assert_eq!(protocol("header"), Some(&Value::Number(0)));
    assert_eq!(protocol("sendable"), Some(&Value::Number(6)));
    let sent = in_words(answer.get("sendable").unwrap());
    let run = answered(&folder, &format!("run fabric 1 {sent} --json"));
    assert_eq!(run.get("fate").and_then(Value::text), Some("left"));
    assert_eq!(run.get("port"), Some(&Value::Number(2)));
    let left_with = |field| run.at(&["header", field]).and_then(Value::text);
    assert_eq!(
        ["nw_src", "nw_dst"].map(left_with),
        [Some("10.7.0.9"), Some("10.0.0.80")]
    );
}

/// Whatever the fabric, the packet that can be sent gets out at the target; or
/// its run stops at the first hop where others might take it, as is said.
#[test]
fn what_can_be_sent_arrives() {
    let folder = folder("sent");
    let (sent, stopped, moved) = (Cell::new(0), Cell::new(0), Cell::new(0));
    cases(9_400_000, 300, |rng| {
        let fabric = any(rng);
        let (port, answer) = judged(&folder, &fabric, rng);
        let sendable = answer
            .get("sendable")
            .filter(|header| **header != Value::Null);
        if let Some(header) = sendable {
            let start = answer.get("port").and_then(Value::number).unwrap();
            let line = format!("run fabric {start} {} --json", in_words(header));
            let run = answered(&folder, &line);
            let fate = run.get("fate").and_then(Value::text);
            let path = answer.get("path").and_then(Value::list).unwrap();
            let stays = |hop: &Value| hop.get("transfer").and_then(Value::text) == Some("none");
            moved.set(moved.get() + u32::from(!path.iter().all(stays)));
            let equals = answer.get("sendable_equals").and_then(Value::list).unwrap();
            let choice = equals.iter().position(|at| *at != Value::List(vec![]));
            match choice {
                Some(hop) => {
                    assert_eq!(fate, Some("tied"));
                    assert_eq!(run.get("hops"), Some(&Value::Number(hop as u64)));
                    stopped.set(stopped.get() + 1);
                }
                None => {
                    assert_eq!(fate, Some("left"));
                    assert_eq!(run.get("port"), Some(&Value::Number(port.into())));
                    sent.set(sent.get() + 1);
                }
            }
        } else if answer.get("header").is_some() {
            assert_eq!(answer.get("sendable_equals"), Some(&Value::Null));
        }
    });
    // A replayed case is one alone.
    let replayed = std::env::var_os("SEED").is_some();
    assert!(replayed || sent.get() > 20 && stopped.get() > 5 && moved.get() > 5);
}

/// The packet that can be sent may meet others than the verdict's does.
#[test]
fn who_else_might_take_what_can_be_sent() {
    let folder = with(
        "others-instead",
        &format!(
            "{EDGES}entry 1 -> 2 priority 1 match nw_dst=10.0.0.2\n\
             entry 1 -> drop priority 1 match nw_proto=tcp\n\
             entry 1 -> drop priority 1 match dl_vlan=65535\n"
        ),
    );
    let text = ran(&folder, "verdict fabric 2");
    let text = text.text();
    assert!(text.contains("\nand takes this way\n"));
    assert!(text.contains("\n    entry 0, priority 1\n"));
    assert!(text.contains(
        "  dl_vlan   65535\n  nw_tos    0\n  nw_proto  6\n  \
         at hop 1, entries 1 and 2 of the same priority might take it too\n\nasked\n"
    ));
    let answer = answered(&folder, "verdict fabric 2 --json");
    let numbers =
        |numbers: &[u64]| Value::List(numbers.iter().map(|&n| Value::Number(n)).collect());
    let told = Value::List(vec![numbers(&[1, 2])]);
    assert_eq!(answer.get("sendable_equals"), Some(&told));
    let path = answer.get("path").and_then(Value::list).unwrap();
    assert_eq!(path[0].get("equals"), Some(&numbers(&[])));
}

/// 17 switches in a row: one hop more than the largest limit.
#[test]
fn links_that_lead_further_are_said() {
    let links = (0..16).map(|at| format!("link {} -> {}\n", 200 + at, 101 + at));
    let links: String = links.collect();
    let entries =
        (1..16).map(|at| format!("entry {} -> {} priority 1 match any\n", 100 + at, 200 + at));
    let entries: String = entries.collect();
    let row = format!(
        "{EDGES}{links}entry 1 -> 200 priority 1 match any\n{entries}\
         entry 116 -> 2 priority 1 match any\n"
    );
    let folder = with("row", &row);
    for (target, further) in [(2, true), (1, false)] {
        let text = ran(&folder, &format!("verdict fabric {target}"));
        assert_eq!(text.status, 0);
        let second = "\nlinks could lead further: of more than 16 hops it says nothing\n";
        assert_eq!(text.text().contains(second), further);
        for command in ["verdict", "list"] {
            let json = answered(&folder, &format!("{command} fabric {target} --json"));
            assert_eq!(json.get("further"), Some(&Value::Truth(further)));
            let text = ran(&folder, &format!("{command} fabric {target}"));
            let hops = "\n  hops     at most 16; links could lead further\n";
            assert_eq!(text.text().contains(hops), further);
        }
        let gate = ran(&folder, &format!("gate fabric {target}"));
        assert_eq!((gate.status, !gate.err.is_empty()), (0, further));
    }
    let audit = ran(&folder, "audit fabric");
    assert!(audit
        .text()
        .contains("\n  hops     at most 16; links could lead further to 2\n"));
    let audit = answered(&folder, "audit fabric --json");
    let rows = audit.get("targets").and_then(Value::list).unwrap();
    let further: Vec<_> = rows.iter().filter_map(|row| row.get("further")).collect();
    assert_eq!(further, [&Value::Truth(false), &Value::Truth(true)]);
}
