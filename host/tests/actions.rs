//! Entries that copy or swap addresses before they rewrite (document 02, 2.5):
//! in files, in texts, and in what is said of a way.

#[path = "common/asked.rs"]
mod asked;
#[path = "common/command.rs"]
mod command;
#[path = "common/json.rs"]
mod json;

use std::cell::Cell;
use std::fs;

use asked::{answered, with};
use command::ran;
use json::Value;
use mwishovala::text::{pack, show};
use mwishovala::{accept, Fabric, Question, Transfer};
use reference::file::{write, EDGE_WORDS, ENTRY_WORDS, LINK_WORDS};
use reference::random::{any, cases, Rng};

const TRANSFERS: [Transfer; 3] = [Transfer::None, Transfer::Copy, Transfer::Swap];

const EDGES: &str = "edge 1 group 9 admits any\nedge 2 group 7 admits any\n";

/// The second switch sends replies, and the third copies; or it drops, swapped.
const REPLIES: &str = "\
    link 10 -> 11\n\
    link 12 -> 13\n\
    entry 1 -> 10 priority 5 match nw_dst=10.0.0.80,nw_proto=udp\n\
    entry 11 -> 12 priority 5 match nw_proto=udp swap set tp_src=53\n\
    entry 13 -> 2 priority 5 match nw_dst=10.7.0.2 copy\n\
    entry 13 -> drop priority 5 match nw_dst=10.7.0.3 swap\n";

/// A fabric's file, and the place of each of its entries there, in words.
fn random_file(rng: &mut Rng) -> (Vec<u8>, Vec<usize>) {
    let fabric = any(rng);
    let first = first_entry(fabric.edges.len(), fabric.links.len());
    let places = (0..fabric.entries.len()).map(|entry| first + ENTRY_WORDS * entry);
    (write(&fabric), places.collect())
}

/// The place of the first entry behind the start and so many edges and links.
fn first_entry(edges: usize, links: usize) -> usize {
    1 + EDGE_WORDS * edges + LINK_WORDS * links
}

/// Puts these bits into an entry's second word, in place of those of this mask.
fn put(file: &mut [u8], entry: usize, mask: u32, bits: u32) {
    let second = &mut file[4 * (entry + 1)..][..4];
    let word = u32::from_le_bytes(second.try_into().unwrap());
    second.copy_from_slice(&(word & !mask | bits).to_le_bytes());
}

/// The same with a transfer of this number.
fn put_transfer(file: &mut [u8], entry: usize, number: usize) {
    put(file, entry, 0xf << 28, (number as u32) << 28);
}

/// Read, written, shown and packed again.
#[test]
fn no_transfer_is_lost() {
    let seen = Cell::new([0; 3]);
    cases(15_100_000, 1500, |rng| {
        let (mut file, entries) = random_file(rng);
        let numbers: Vec<usize> = entries.iter().map(|_| rng.below(3)).collect();
        for (&entry, &number) in entries.iter().zip(&numbers) {
            put_transfer(&mut file, entry, number);
        }
        let fabric = Fabric::read(&file).unwrap();
        for (entry, &number) in fabric.entries.iter().zip(&numbers) {
            assert_eq!(entry.transfer, TRANSFERS[number]);
            let mut times = seen.get();
            times[number] += 1;
            seen.set(times);
        }
        assert_eq!(fabric.to_bytes().unwrap(), file);
        let shown = show(&fabric);
        assert!(pack(&shown).as_deref() == Ok(&file[..]), "{shown}");
    });
    let replayed = std::env::var_os("SEED").is_some();
    assert!(replayed || seen.get().iter().all(|&times| times > 10_000));
}

/// A transfer above 2 and a bit that has no meaning are refused, each with its
/// reason, and never read as another fabric's.
#[test]
fn what_is_no_transfer_is_refused() {
    let changed_entries = Cell::new(0);
    cases(15_200_000, 300, |rng| {
        let (file, entries) = random_file(rng);
        let Some(&entry) = rng.pick(&entries) else {
            return;
        };
        let refused = |file: &[u8], why: &str| {
            let refusal = accept(file).unwrap_err();
            assert_eq!(refusal.question, Question::Record);
            assert_eq!((refusal.place, &refusal.reason[..]), (entry as u64, why));
            assert_eq!(Fabric::read(file), Err(refusal));
        };
        for number in 3..16 {
            let mut changed = file.clone();
            put_transfer(&mut changed, entry, number);
            // Of two things that are wrong, the transfer is told.
            put(&mut changed, entry, 0, rng.one_of([0, 1 << 12, 1 << 27]));
            let why = format!(
                "an entry with transfer {number}: 0 does nothing, \
                 1 copies nw_src over nw_dst, 2 swaps nw_src and nw_dst"
            );
            refused(&changed, &why);
        }
        for bit in 12..28 {
            let mut changed = file.clone();
            put_transfer(&mut changed, entry, rng.below(3));
            put(&mut changed, entry, 0, 1 << bit);
            refused(&changed, "an entry with bits set that have to be zero");
        }
        changed_entries.set(changed_entries.get() + 1);
    });
    let replayed = std::env::var_os("SEED").is_some();
    assert!(replayed || changed_entries.get() > 200);
}

/// The command refuses them too, and says neither a fabric nor a verdict.
#[test]
fn nothing_is_said_of_what_is_no_transfer() {
    let folder = with("no-transfer", &format!("{EDGES}{REPLIES}"));
    let whole = fs::read(folder.join("fabric")).unwrap();
    let entry = first_entry(2, 2);
    for bits in [3 << 28, 8 << 28, 0xf << 28, 1 << 27, 1 << 12] {
        let mut changed = whole.clone();
        put(&mut changed, entry, 0, bits);
        fs::write(folder.join("changed"), &changed).unwrap();
        for line in [
            "show changed",
            "gate changed 2",
            "verdict changed 2",
            "dot changed",
        ] {
            let ran = ran(&folder, line);
            assert_eq!((ran.status, ran.out.len()), (2, 0), "{line}");
            let said = "mwishovala: changed: question 3 at word 21: an entry with ";
            assert!(ran.err.starts_with(said), "{}", ran.err);
        }
    }
}

/// What a line says behind its match, and what an entry then does.
#[test]
fn actions_in_a_line() {
    for (action, transfer, written) in [
        ("", Transfer::None, "any"),
        (" set tp_dst=80", Transfer::None, "tp_dst=80"),
        (" copy", Transfer::Copy, "any"),
        (
            " copy set nw_src=10.0.0.9",
            Transfer::Copy,
            "nw_src=10.0.0.9",
        ),
        (" swap", Transfer::Swap, "any"),
        (
            " swap set tp_dst=80,nw_tos=4",
            Transfer::Swap,
            "tp_dst=80,nw_tos=4",
        ),
    ] {
        for out_port in ["4", "drop"] {
            let line = format!("entry 3 -> {out_port} priority 9 match nw_dst=10.0.0.80{action}");
            let fabric = Fabric::read(&pack(&line).unwrap()).unwrap();
            let entry = &fabric.entries[0];
            assert_eq!(
                (entry.transfer, entry.rewrite.to_string()),
                (transfer, written.into())
            );
            assert!(show(&fabric).contains(&format!("\n{line}  # 0\n")));
        }
    }
    // A rewrite of nothing is none.
    let pack = |action: &str| pack(&format!("entry 3 -> 4 priority 9 match any {action}"));
    assert_eq!(pack("swap set any"), pack("swap"));
}

/// Hop by hop, what is done to the addresses, and what the header becomes.
#[test]
fn a_way_says_what_a_header_becomes() {
    let folder = with("way", &format!("{EDGES}{REPLIES}"));
    let reached = ran(&folder, "verdict fabric 2");
    assert_eq!(reached.status, 1);
    assert!(reached.text().contains(
        "\nand takes this way\n  \
         hop 1: in at port 1, out at port 10, over the link to port 11\n    \
         entry 0, priority 5\n    \
         match   nw_dst=10.0.0.80,nw_proto=17\n    \
         rewrite none\n  \
         hop 2: in at port 11, out at port 12, over the link to port 13\n    \
         entry 1, priority 5\n    \
         match   nw_proto=17\n    \
         first   swaps nw_src and nw_dst\n    \
         rewrite tp_src=53\n    \
         becomes nw_src=10.0.0.80,nw_dst=10.7.0.2,tp_src=53,tp_dst=0,dl_vlan=0,nw_tos=0,nw_proto=17\n  \
         hop 3: in at port 13, out at port 2, leaving the fabric\n    \
         entry 2, priority 5\n    \
         match   nw_dst=10.7.0.2\n    \
         first   copies nw_src over nw_dst\n    \
         rewrite none\n    \
         becomes nw_src=10.0.0.80,nw_dst=10.0.0.80,tp_src=53,tp_dst=0,dl_vlan=0,nw_tos=0,nw_proto=17\n\n\
         asked\n"
    ));
    for line in ["verdict fabric 2", "audit fabric"] {
        let answer = answered(&folder, &format!("{line} --json"));
        let rows = answer.get("targets").and_then(Value::list);
        let path = rows.map_or(&answer, |rows| &rows[1]).get("path");
        let path = path.and_then(Value::list).unwrap().iter();
        let transfers: Vec<_> = path.filter_map(|hop| hop.get("transfer")?.text()).collect();
        assert_eq!(transfers, ["none", "swap", "copy"]);
    }
    let picture = ran(&folder, "dot fabric 2");
    for label in [
        "11 -> 12 [label=\"hop 2: entry 1 (swap set tp_src=53)\"",
        "13 -> 2 [label=\"hop 3: entry 2 (copy)\"",
        "13 -> drop_13 [label=\"3 (swap)\"",
    ] {
        assert!(picture.text().contains(label), "{label}");
    }
}

/// A drop copies or swaps too: the header then says so.
#[test]
fn a_run_has_the_header_after_the_action() {
    let folder = with("dropped", &format!("{EDGES}{REPLIES}"));
    let run = |nw_src: &str| {
        let header = format!("nw_src={nw_src},nw_dst=10.0.0.80,nw_proto=udp");
        answered(&folder, &format!("run fabric 1 {header} --json"))
    };
    for (nw_src, fate, header) in [
        ("10.7.0.2", "left", ["10.0.0.80", "10.0.0.80"]),
        ("10.7.0.3", "dropped", ["10.7.0.3", "10.0.0.80"]),
        ("10.7.0.4", "lost", ["10.0.0.80", "10.7.0.4"]),
    ] {
        let run = run(nw_src);
        assert_eq!(run.get("fate").and_then(Value::text), Some(fate));
        let address = |field| run.at(&["header", field]).and_then(Value::text);
        assert_eq!(["nw_src", "nw_dst"].map(address), header.map(Some));
        assert_eq!(run.at(&["header", "tp_src"]), Some(&Value::Number(53)));
    }
}

/// What the asked set wants of nw_dst is, before a copy, wanted of nw_src.
#[test]
fn what_is_asked_is_traced_back_through_a_copy() {
    let folder = with("asked", &format!("{EDGES}{REPLIES}"));
    for (asked, status) in [
        ("nw_dst=10.0.0.80", 1),
        ("nw_src=10.0.0.80,nw_dst=10.0.0.80", 1),
        ("nw_dst=10.7.0.2", 0),
        ("nw_src=10.0.0.80,nw_dst=10.0.0.81", 0),
    ] {
        let judged = ran(&folder, &format!("verdict fabric 2 --asked {asked}"));
        assert_eq!(judged.status, status, "{asked}");
    }
}
