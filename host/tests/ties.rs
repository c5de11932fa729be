//! The command where entries of the same priority leave a choice: what it says
//! of a way, of a packet that stops there, and of the fabric.

#[path = "common/asked.rs"]
mod asked;
#[path = "common/command.rs"]
mod command;
#[path = "common/json.rs"]
mod json;

use std::cell::Cell;
use std::fs;
use std::path::PathBuf;

use asked::{answered, in_words, judged};
use command::{folder, ran};
use json::Value;
use mwishovala::MOST_PARTS;
use reference::file::write;
use reference::random::{any, cases, ties, Rng};
use reference::set::from_words;
use reference::Fabric;

const EDGES: &str = "edge 1 group 9 admits any\nedge 2 group 7 admits any\n";

/// Two switches. At the first, entries 0 and 1 tie below entry 2, and entry 3 is
/// of the same priority but for other packets. The rewrite of entry 0 makes
/// three tie at the second; entry 7 is below them.
const TWO_SWITCHES: &str = "\
    link 10 -> 11\n\
    entry 1 -> 10 priority 5 match nw_dst=10.7.0.2 set dl_vlan=5\n\
    entry 1 -> drop priority 5 match nw_dst=10.7.0.0/24\n\
    entry 1 -> 10 priority 6 match nw_proto=udp\n\
    entry 1 -> drop priority 5 match nw_dst=10.7.0.3\n\
    entry 11 -> drop priority 5 match dl_vlan=5\n\
    entry 11 -> 2 priority 5 match any set nw_tos=4\n\
    entry 11 -> drop priority 5 match dl_vlan=5,nw_dst=10.7.0.2\n\
    entry 11 -> drop priority 4 match any\n";

/// A folder with these edges and lines as `fabric`.
fn with(name: &str, lines: &str) -> PathBuf {
    asked::with(name, &format!("{EDGES}{lines}"))
}

fn numbers(value: &Value) -> Vec<u64> {
    let values = value.list().expect("a list");
    let number = |value: &Value| value.number().expect("a number");
    values.iter().map(number).collect()
}

/// For each object of the list with this name, the numbers in one of its lists.
fn numbers_of_each(answer: &Value, name: &str, list: &str) -> Vec<Vec<u64>> {
    let objects = answer.get(name).and_then(Value::list).expect("a list");
    let numbers = objects
        .iter()
        .map(|object| numbers(object.get(list).unwrap()));
    numbers.collect()
}

/// For each hop of a verdict's or a run's way, who else might take the packet.
fn equals_of_path(answer: &Value) -> Vec<Vec<u64>> {
    numbers_of_each(answer, "path", "equals")
}

/// The same of a list's first find.
fn equals_of_first(answer: &Value) -> Vec<Vec<u64>> {
    let finds = answer.get("finds").and_then(Value::list).unwrap();
    let equals = finds[0].get("equals").and_then(Value::list).unwrap();
    equals.iter().map(numbers).collect()
}

#[test]
fn a_choice_is_told_at_its_hop() {
    let folder = with("choice", TWO_SWITCHES);
    let reached = ran(&folder, "verdict fabric 2 --asked nw_proto=tcp");
    assert_eq!(reached.status, 1);
    assert!(reached.text().contains(
        "and takes this way, by one choice among entries of the same priority\n  \
         hop 1: in at port 1, out at port 10, over the link to port 11\n    \
         entry 0, priority 5; entry 1 of the same priority might take it too\n    \
         match   nw_dst=10.7.0.2\n    rewrite dl_vlan=5\n  \
         hop 2: in at port 11, out at port 2, leaving the fabric\n    \
         entry 5, priority 5; entries 4 and 6 of the same priority might take it too\n    \
         match   any\n    rewrite nw_tos=4\n"
    ));
    for line in ["verdict fabric 2", "audit fabric"] {
        let answer = answered(&folder, &format!("{line} --asked nw_proto=tcp --json"));
        let rows = answer.get("targets").and_then(Value::list);
        let judged = rows.map_or(&answer, |rows| &rows[1]);
        assert_eq!(equals_of_path(judged), [vec![1], vec![4, 6]]);
    }
    let picture = ran(&folder, "dot fabric 2 --asked nw_proto=tcp");
    assert!(picture
        .text()
        .contains("\"hop 1: entry 0 (set dl_vlan=5) (or 1)\""));
    assert!(picture
        .text()
        .contains("\"hop 2: entry 5 (set nw_tos=4) (or 4, 6)\""));
}

/// Udp is taken by entry 2, and without the rewrite entry 5 stands alone.
#[test]
fn equals_below_a_higher_entry_are_not_told() {
    let folder = with("hidden", TWO_SWITCHES);
    let asked = "--asked nw_dst=10.7.0.2,nw_proto=udp,dl_vlan=7";
    let reached = ran(&folder, &format!("verdict fabric 2 {asked}"));
    assert!(reached.text().contains("\nand takes this way\n"));
    assert!(!reached.text().contains("same priority"));
    let answer = answered(&folder, &format!("verdict fabric 2 {asked} --json"));
    assert_eq!(equals_of_path(&answer), [vec![], vec![]]);
    let run = "run fabric 1 nw_dst=10.7.0.2,nw_proto=udp,dl_vlan=7 --json";
    let run = answered(&folder, run);
    assert_eq!(run.get("fate").and_then(Value::text), Some("left"));
    assert_eq!(run.get("tied"), Some(&Value::List(vec![])));
    assert_eq!(equals_of_path(&run), [vec![], vec![]]);
}

#[test]
fn a_run_stops_where_entries_tie() {
    let folder = with("run", TWO_SWITCHES);
    let run = ran(&folder, "run fabric 1 nw_dst=10.7.0.2,nw_proto=tcp");
    assert_eq!(run.status, 0);
    assert!(run.text().starts_with(
        "tied: entries 0 and 1 of the same priority might take it at port 1, after 0 hops\n\n\
         its header then\n  nw_src    0.0.0.0\n  nw_dst    10.7.0.2\n"
    ));
    assert!(!run.text().contains("it took this way"));
    // After a hop that only entry 2 makes.
    let line = "run fabric 1 nw_dst=10.7.0.2,nw_proto=udp,dl_vlan=5";
    let run = ran(&folder, line);
    assert!(run.text().starts_with(
        "tied: entries 4, 5 and 6 of the same priority might take it at port 11, after 1 hop\n"
    ));
    assert!(run
        .text()
        .contains("it took this way\n  hop 1: in at port 1,"));
    let run = answered(&folder, &format!("{line} --json"));
    assert_eq!(run.get("fate").and_then(Value::text), Some("tied"));
    assert_eq!(run.get("port"), Some(&Value::Number(11)));
    assert_eq!(run.get("hops"), Some(&Value::Number(1)));
    assert_eq!(numbers(run.get("tied").unwrap()), [4, 5, 6]);
    // At the limit it is still travelling, whatever stands there.
    let run = answered(&folder, &format!("{line} --hops 1 --json"));
    assert_eq!(run.get("fate").and_then(Value::text), Some("travelling"));
    assert_eq!(run.get("tied"), Some(&Value::List(vec![])));
}

/// The first switch writes tp_dst 80, which makes entries tie at the third.
#[test]
fn a_rewrite_makes_entries_tie_two_hops_on() {
    let folder = with(
        "two-hops-on",
        "link 10 -> 11\nlink 20 -> 21\n\
         entry 1 -> 10 priority 5 match any set tp_dst=80\n\
         entry 11 -> 20 priority 5 match any\n\
         entry 21 -> drop priority 5 match tp_dst=80\n\
         entry 21 -> drop priority 5 match tp_dst=0\n\
         entry 21 -> 2 priority 5 match any\n",
    );
    let reached = ran(&folder, "verdict fabric 2");
    assert!(reached.text().contains(
        "  hop 3: in at port 21, out at port 2, leaving the fabric\n    \
         entry 4, priority 5; entry 2 of the same priority might take it too\n"
    ));
    assert_eq!(reached.text().matches("might take it too").count(), 2);
    let answer = answered(&folder, "verdict fabric 2 --json");
    assert_eq!(equals_of_path(&answer), [vec![], vec![], vec![2]]);
    let list = answered(&folder, "list fabric 2 --json");
    assert_eq!(equals_of_first(&list), [vec![], vec![], vec![2]]);
    let run = ran(&folder, "run fabric 1 any");
    assert!(run.text().starts_with(
        "tied: entries 2 and 4 of the same priority might take it at port 21, after 2 hops\n"
    ));
}

/// After the swap nw_src is 10.0.0.80, and after the copy nw_dst too: those that
/// want something else there are of the same priority, but never take the packet.
#[test]
fn copies_and_swaps_decide_who_else_might_take_a_packet() {
    let folder = with(
        "replies",
        "link 10 -> 11\nlink 20 -> 21\n\
         entry 1 -> 10 priority 5 match nw_dst=10.0.0.80 swap\n\
         entry 11 -> 20 priority 5 match any copy\n\
         entry 11 -> drop priority 5 match nw_src=10.0.0.80\n\
         entry 11 -> drop priority 5 match nw_src=10.0.0.81\n\
         entry 21 -> 2 priority 5 match any\n\
         entry 21 -> drop priority 5 match nw_dst=10.0.0.0\n\
         entry 21 -> drop priority 5 match nw_dst=10.0.0.80\n",
    );
    let expected = [vec![], vec![2], vec![6]];
    let verdict = answered(&folder, "verdict fabric 2 --json");
    assert_eq!(equals_of_path(&verdict), expected);
    let list = answered(&folder, "list fabric 2 --json");
    assert_eq!(equals_of_first(&list), expected);
}

/// What is copied may be anything, but it stands in both addresses then.
#[test]
fn a_copy_makes_both_addresses_one() {
    let folder = with(
        "copied",
        "link 10 -> 11\n\
         entry 1 -> 10 priority 5 match any copy\n\
         entry 11 -> 2 priority 5 match any\n\
         entry 11 -> drop priority 5 match nw_src=10.0.0.1,nw_dst=10.0.0.2\n\
         entry 11 -> drop priority 5 match nw_src=10.0.0.0/8,nw_dst=10.0.0.2\n",
    );
    let list = answered(&folder, "list fabric 2 --json");
    assert_eq!(equals_of_first(&list), [vec![], vec![3]]);
}

/// Two entries with one out-port and one rewrite, of which one swaps before it.
#[test]
fn who_swaps_does_not_do_the_same() {
    let folder = with(
        "same",
        "entry 1 -> 2 priority 5 match any swap set nw_tos=4\n\
         entry 1 -> 2 priority 5 match any set nw_tos=4\n\
         entry 1 -> 2 priority 5 match nw_proto=udp swap set nw_tos=4\n",
    );
    let answer = answered(&folder, "audit fabric --json");
    let pairs = numbers_of_each(&answer, "ties", "entries");
    assert_eq!(pairs, [[0, 1], [0, 2], [1, 2]]);
    let ties = answer.get("ties").and_then(Value::list).unwrap();
    let same: Vec<&Value> = ties.iter().filter_map(|tie| tie.get("same")).collect();
    assert_eq!(same, [false, true, false].map(Value::Truth).each_ref());
}

/// In a list a find may be of many headers, of which others might take some.
#[test]
fn a_list_tells_choices() {
    let folder = with("list", TWO_SWITCHES);
    let asked = "--asked nw_dst=10.7.0.2,nw_proto=tcp";
    let listed = ran(&folder, &format!("list fabric 2 {asked}"));
    assert!(listed.text().contains(
        "\nfrom  group  whose    hops  entries                headers\n\
         1     9      foreign  2     0 (or 1), 5 (or 4, 6)  nw_dst=10.7.0.2,nw_proto=6\n\n\
         or: of the same priority, and might take these packets too, or some of them\n\nasked\n"
    ));
    let tcp = answered(&folder, &format!("list fabric 2 {asked} --json"));
    assert_eq!(numbers_of_each(&tcp, "finds", "entries"), [[0, 5]]);
    assert_eq!(equals_of_first(&tcp), [vec![1], vec![4, 6]]);
    // Without the rewrite, some of a find's packets have dl_vlan 5.
    let udp = answered(&folder, "list fabric 2 --asked nw_proto=udp --json");
    assert_eq!(numbers_of_each(&udp, "finds", "entries"), [[2, 5]]);
    assert_eq!(equals_of_first(&udp), [vec![], vec![4, 6]]);
    let alone = ran(&folder, "list fabric 2 --asked nw_proto=udp,dl_vlan=7");
    assert!(!alone.text().contains("(or") && !alone.text().contains("or:"));
}

#[test]
fn the_gate_tells_choices() {
    let chosen = |name: &str, lines: &str| {
        let ran = ran(&with(name, lines), "gate fabric 2");
        assert_eq!((ran.status, &ran.err[..]), (1, ""));
        let (before, _) = ran.text().split_once(", sha256 ").unwrap();
        before.to_string()
    };
    let allow = "entry 1 -> 2 priority 5 match any\n";
    let deny = "entry 1 -> drop priority 5 match any\n";
    assert_eq!(chosen("gate-0", allow), "reached: port 2, from port 1");
    assert_eq!(
        chosen("gate-1", &format!("{allow}{deny}")),
        "reached: port 2, from port 1, by a choice among equals at hop 1"
    );
    assert_eq!(
        chosen("gate-2", TWO_SWITCHES),
        "reached: port 2, from port 1, by choices among equals at hops 1 and 2"
    );
}

/// What `show` and `audit` say of the two switches' ties, differences first.
const TIES: [&str; 5] = [
    "4 ties that matter: two entries of the same priority match, and either may take the packet",
    "  entries 0 and 1 at port 1, priority 5: either might take ",
    "  entries 4 and 5 at port 11, priority 5: either might take ",
    "  entries 5 and 6 at port 11, priority 5: either might take ",
    "  entries 4 and 6 at port 11, priority 5: either might take ",
];

/// The lines that these begin, one after the other, each after this.
fn check_ties(text: &str, before: &str) {
    let first = format!("{before}{}", TIES[0]);
    let lines: Vec<&str> = text.lines().skip_while(|line| *line != first).collect();
    assert!(lines.len() > TIES.len() - 1, "{text}");
    for (line, tie) in lines.iter().zip(TIES) {
        assert!(line.starts_with(&format!("{before}{tie}")), "{line}");
        let does_the_same = line.ends_with("; both do the same, but a packet run stops there");
        assert_eq!(does_the_same, tie.contains("4 and 6"), "{line}");
    }
    assert!(lines
        .get(TIES.len())
        .is_none_or(|line| !line.contains("entries")));
}

#[test]
fn ties_are_pointed_out() {
    // Entries 1 and 3 tie too, but only for packets that entry 8 takes.
    let hidden = format!("{TWO_SWITCHES}entry 1 -> drop priority 9 match nw_dst=10.7.0.3\n");
    let folder = with("ties", &hidden);
    let audit = ran(&folder, "audit fabric");
    assert_eq!(audit.status, 1);
    check_ties(audit.text(), "");
    assert_eq!(audit.text().matches("that matter").count(), 1);
    check_ties(ran(&folder, "show fabric").text(), "# ");
    let answer = answered(&folder, "audit fabric --json");
    let ties = answer.get("ties").and_then(Value::list).unwrap();
    let pairs = numbers_of_each(&answer, "ties", "entries");
    assert_eq!(pairs, [[0, 1], [4, 5], [4, 6], [5, 6]]);
    for (tie, pair) in ties.iter().zip(&pairs) {
        let number = |name| tie.get(name).and_then(Value::number).unwrap();
        let in_port = if pair[0] < 4 { 1 } else { 11 };
        assert_eq!([number("in_port"), number("priority")], [in_port, 5]);
        assert_eq!(tie.get("same"), Some(&Value::Truth(pair == &[4, 6])));
    }
    // The header of the first is one for which a run stops.
    let header = ties[0].get("header").map(in_words).unwrap();
    let run = answered(&folder, &format!("run fabric 1 {header} --json"));
    assert_eq!(numbers(run.get("tied").unwrap()), [0, 1]);
    // Where all are isolated, ties are told all the same.
    let isolated = ran(&folder, "audit fabric --asked tp_dst=1,nw_dst=10.7.0.3");
    assert_eq!(isolated.status, 0);
    check_ties(isolated.text(), "");
}

/// The ones above hold every header, in parts that are too many to look at.
#[test]
fn what_may_tie_is_told() {
    let mut lines = String::from("entry 1 -> drop priority 1 match any\n");
    lines += "entry 1 -> 2 priority 1 match any\n";
    let splits = (0..10).map(|place| 3u32 << (2 * place));
    let splits = splits.map(|bits| format!("nw_src=0x{bits:08x}/0x{bits:08x}"));
    let cover = (0..4).map(|last| format!("nw_dst=0x{last:08x}/0x00000003"));
    for (set, priority) in splits.chain(cover).zip(2..) {
        lines += &format!("entry 1 -> drop priority {priority} match {set}\n");
    }
    let folder = with("perhaps", &lines);
    let said = "0 ties that matter, 1 more that may: two entries of the same priority match, \
                and either may take the packet\n";
    let which = format!(
        "  entries 0 and 1 at port 1, priority 1: they may tie, \
         which takes more than {MOST_PARTS} parts to say\n"
    );
    let audit = ran(&folder, "audit fabric");
    assert!(audit.text().contains(&format!("\n{said}{which}\nasked\n")));
    let shown = ran(&folder, "show fabric");
    assert!(shown.text().ends_with(&format!("# {said}# {which}")));
    let answer = answered(&folder, "audit fabric --json");
    let ties = answer.get("ties").and_then(Value::list).unwrap();
    assert_eq!(ties[0].get("header"), Some(&Value::Null));
}

/// Without ties nothing is said of them.
#[test]
fn no_ties_no_words() {
    let folder = with("no-ties", "entry 1 -> 2 priority 5 match any\n");
    for line in [
        "audit fabric",
        "show fabric",
        "verdict fabric 2",
        "list fabric 2",
    ] {
        let said = ran(&folder, line);
        for word in ["tie", "equal", "choice", "same priority", "or:"] {
            assert!(!said.text().contains(word), "{line}: {word}");
        }
    }
    let answer = answered(&folder, "audit fabric --json");
    assert_eq!(answer.get("ties"), Some(&Value::List(vec![])));
}

/// What is shown is packed again to the same bytes, ties and all.
#[test]
fn shown_ties_are_packed_again() {
    let folder = folder("ties-packed");
    let tied = Cell::new(0);
    cases(13_300_000, 100, |rng| {
        let file = write(&tied_fabric(rng));
        fs::write(folder.join("fabric"), &file).unwrap();
        let shown = ran(&folder, "show fabric");
        fs::write(folder.join("text"), &shown.out).unwrap();
        assert_eq!(ran(&folder, "pack text again").status, 0);
        assert_eq!(fs::read(folder.join("again")).unwrap(), file);
        tied.set(tied.get() + u32::from(shown.text().contains("that matter")));
    });
    let replayed = std::env::var_os("SEED").is_some();
    assert!(replayed || tied.get() > 30, "{tied:?}");
}

fn tied_fabric(rng: &mut Rng) -> Fabric {
    match rng.once_in(2) {
        true => ties(rng).fabric,
        false => any(rng),
    }
}

/// "Any matching entry of the highest priority may take the packet": by number.
fn takers(fabric: &Fabric, in_port: u16, header: u128) -> Vec<u64> {
    let matches = |number: &usize| {
        let entry = &fabric.entries[*number];
        entry.in_port == in_port && entry.matching.contains(header)
    };
    let matching = (0..fabric.entries.len()).filter(matches);
    let priority = |number: &usize| fabric.entries[*number].priority;
    let highest = matching.clone().map(|number| priority(&number)).max();
    let takers = matching.filter(|number| Some(priority(number)) == highest);
    takers.map(|number| number as u64).collect()
}

/// A verdict's JSON tells at each hop the entry's transfer, the other takers and
/// nobody else; and a run's, those between which it stops.
#[test]
fn equals_are_the_other_takers() {
    let folder = folder("equals-random");
    let (chosen, alone, moved) = (Cell::new(0), Cell::new(0), Cell::new(0));
    cases(13_400_000, 300, |rng| {
        let fabric = tied_fabric(rng);
        let (_, answer) = judged(&folder, &fabric, rng);
        let Some(header) = answer.get("header") else {
            return;
        };
        let mut here = bits_of(header);
        let path = answer.get("path").and_then(Value::list).unwrap();
        let mut first_choice = None;
        for (hop, equals) in path.iter().zip(equals_of_path(&answer)) {
            let number = hop.get("entry").and_then(Value::number).unwrap();
            let entry = &fabric.entries[number as usize];
            let takers = takers(&fabric, entry.in_port, here);
            let others = takers.iter().copied().filter(|taker| *taker != number);
            assert_eq!(equals, others.collect::<Vec<_>>());
            let cell = if equals.is_empty() { &alone } else { &chosen };
            cell.set(cell.get() + 1);
            if takers.len() > 1 {
                first_choice = first_choice.or(Some(takers));
            }
            here = entry.apply(here);
            let transfer = ["none", "copy", "swap"][entry.transfer as usize];
            assert_eq!(hop.get("transfer").and_then(Value::text), Some(transfer));
            moved.set(moved.get() + u32::from(transfer != "none"));
        }
        let start = answer.get("port").and_then(Value::number).unwrap();
        let run = format!("run fabric {start} {} --json", in_words(header));
        let tied = numbers(answered(&folder, &run).get("tied").unwrap());
        assert_eq!(tied, first_choice.unwrap_or_default());
    });
    let replayed = std::env::var_os("SEED").is_some();
    assert!(replayed || chosen.get() > 30 && alone.get() > 30 && moved.get() > 30);
}

/// A header's 128 bits, from its fields.
fn bits_of(header: &Value) -> u128 {
    let number = |name| header.get(name).and_then(Value::number).unwrap() as u32;
    let address = |name| {
        let text = header.get(name).and_then(Value::text).unwrap();
        u32::from(text.parse::<std::net::Ipv4Addr>().unwrap())
    };
    let other = number("dl_vlan") << 16 | number("nw_tos") << 8 | number("nw_proto");
    let ports = number("tp_src") << 16 | number("tp_dst");
    from_words([address("nw_src"), address("nw_dst"), ports, other])
}
