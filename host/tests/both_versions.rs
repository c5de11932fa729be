//! The typed calls on files of version 2, and what each version refuses of the
//! other one.

use mwishovala::text::{pack, show};
use mwishovala::{
    accept, isolated, limits, list, list_growing, run, verdict, AnyFabric, Entry, Fabric, Fate,
    Field, Header, HeaderSet, OpenFlow, Query, Question, Verdict, Version,
};

/// What is sent to one Ethernet address gets out at port 2, but for IPv4.
const FRAMES: &str = "version 2
    edge 1 group 9 admits any
    edge 2 group 7 admits any
    entry 1 -> drop priority 20 match dl_type=ip
    entry 1 -> 2 priority 10 match dl_dst=02:00:00:00:07:02 set dl_vlan_pcp=3,dl_src=02:00:00:00:00:01
";

fn fabric(file: &[u8]) -> Fabric<8> {
    match AnyFabric::read(file).unwrap() {
        AnyFabric::V2(fabric) => fabric,
        other => panic!("{other:?} is of another version"),
    }
}

/// These headers at port 2.
fn asked(set: &str) -> Query<8> {
    Query {
        asked: set.parse().unwrap(),
        ..Query::all_wild(2).resized().unwrap()
    }
}

#[test]
fn a_verdict_hangs_on_an_ethernet_field() {
    let file = pack(FRAMES).unwrap();
    for (set, is_reached) in [
        ("any", true),
        ("dl_type=ip", false),
        ("dl_type=arp", true),
        ("dl_type=0x0800/0xfff0", true),
        ("dl_dst=02:00:00:00:07:02", true),
        ("dl_dst=02:00:00:00:07:03", false),
        ("dl_dst=02:00:00:00:07:00/ff:ff:ff:ff:ff:00", true),
        ("dl_src=02:00:00:00:00:01", true),
        ("dl_src=02:00:00:00:00:02", false),
        ("dl_vlan_pcp=3", true),
        ("dl_vlan_pcp=2", false),
    ] {
        let verdict = verdict(&file, &asked(set)).unwrap();
        match verdict {
            Verdict::Reached {
                port,
                hops,
                header,
                entries,
                ..
            } => {
                assert!(is_reached, "{set}");
                assert_eq!((port, hops, &entries[..]), (1, 1, &[1][..]));
                assert_eq!(header.get(Field::DL_DST), 0x0200_0000_0702);
                assert_ne!(header.get(Field::DL_TYPE), 0x0800);
                let found = verdict.find(&fabric(&file), &asked(set)).unwrap();
                assert!(found.contains(&header));
            }
            _ => assert!(!is_reached, "{set}"),
        }
    }
}

/// By what the file says, and never for what isn't answered.
#[test]
fn isolated_by_the_files_version() {
    let file = pack(FRAMES).unwrap();
    assert_eq!(isolated(&file, 1, 9), Ok(true));
    assert_eq!(isolated(&file, 2, 9), Ok(false));
    let question = |file: &[u8], target, budget| {
        let refused = isolated(file, target, budget);
        refused.map_err(|refusal| refusal.question)
    };
    assert_eq!(question(&file, 3, 9), Err(Question::Target));
    assert_eq!(question(&file, 2, 0), Err(Question::Budget));
    assert_eq!(question(&file[4..], 2, 9), Err(Question::Start));
    assert_eq!(question(&[], 2, 9), Err(Question::Length));
}

#[test]
fn finds_of_eight_words() {
    let file = pack(FRAMES).unwrap();
    let query = asked("dl_type=0x0800/0xff00");
    let mut area = [0; 4096];
    let finds: Vec<_> = list(&file, &mut area, &query).unwrap().collect();
    // One for each bit by which a dl_type isn't 0x0800.
    assert_eq!(finds.len(), 8);
    for find in &finds {
        assert_eq!((find.port, find.hops, &find.entries[..]), (1, 1, &[1][..]));
        let dl_dst = "dl_dst=02:00:00:00:07:02".parse().unwrap();
        assert!(find.set.is_within(&dl_dst), "{}", find.set);
    }
    let mut growing = Vec::new();
    let again = list_growing(&file, &mut growing, 1 << 20, &query).unwrap();
    assert!(again.eq(finds));
    // A find has a word, one for its entry, and eight each of care and value.
    let mut short = [0; 8 * 4 * 18 - 1];
    let refusal = list(&file, &mut short, &query).unwrap_err();
    assert_eq!(refusal.question, Question::Area);
    let lost = Query { port: 0, ..query };
    let mut lost = list_growing(&file, &mut growing, 1 << 20, &lost).unwrap();
    assert!(lost.all(|find| find.hops == 0 && find.set.meets(&query.asked)));
}

#[test]
fn a_run_of_eight_words() {
    let file = pack(FRAMES).unwrap();
    let set: HeaderSet<8> = "nw_src=1.2.3.4,dl_dst=02:00:00:00:07:02,dl_type=arp"
        .parse()
        .unwrap();
    let left = run(&file, 1, set.lowest(), 16).unwrap();
    assert_eq!((left.fate, left.port, left.hops), (Fate::Left, 2, 1));
    assert_eq!(
        left.header,
        Header([
            0x0102_0304,
            0,
            0,
            0,
            0x0200_0000,
            0x0001_0200,
            0x0000_0702,
            0x0806_0300
        ])
    );
    let set: HeaderSet<8> = "dl_dst=02:00:00:00:07:02,dl_type=ip".parse().unwrap();
    assert_eq!(run(&file, 1, set.lowest(), 16).unwrap().fate, Fate::Dropped);
    assert_eq!(run(&file, 1, Header([0; 8]), 16).unwrap().fate, Fate::Lost);
}

/// Copy and swap move the first two words, and no Ethernet address.
#[test]
fn addresses_of_ip_alone_are_moved() {
    for (transfer, moved) in [("copy", [1, 1]), ("swap", [2, 1])] {
        let text = format!(
            "version 2\nedge 1 group 7 admits any\nentry 1 -> 2 priority 1 match any {transfer}"
        );
        let run = run(
            &pack(&text).unwrap(),
            1,
            Header([1, 2, 3, 4, 5, 6, 7, 0x800]),
            16,
        )
        .unwrap();
        assert_eq!(
            run.header,
            Header([moved[0], moved[1], 3, 4, 5, 6, 7, 0x800])
        );
    }
}

/// The zero bits of a header: in no care, no mask and no packet.
#[test]
fn bits_that_no_field_has() {
    let whole = fabric(&pack(FRAMES).unwrap());
    type Set = fn(&mut Fabric<8>) -> &mut HeaderSet<8>;
    let sets: [(Set, &str, u64); 3] = [
        (
            |fabric| &mut fabric.edges[1].admitted,
            "the admitted set of edge 2",
            18,
        ),
        (
            |fabric| &mut fabric.entries[0].matching,
            "the match of entry 0",
            35,
        ),
        (
            |fabric| &mut fabric.entries[1].rewrite,
            "the rewrite of entry 1",
            69,
        ),
    ];
    for (set, what, place) in sets {
        for bit in 0..8 {
            let mut changed = whole.clone();
            set(&mut changed).care[7] |= 1 << bit;
            let refusal = accept(&changed.to_bytes().unwrap()).unwrap_err();
            let bits = 1 << bit;
            assert_eq!(
                refusal.to_string(),
                format!(
                    "question 5 at word {place}: {what} has bits 0x{bits:08x} in word 7 that \
                     have to be zero: no field has them"
                )
            );
        }
    }
    let file = whole.to_bytes().unwrap();
    let mut query = asked("any");
    query.asked.care[7] = 0x81;
    let refusal = verdict(&file, &query).unwrap_err();
    assert_eq!(
        refusal.to_string(),
        "question 10: the asked set has bits 0x00000081 in word 7 that have to be zero: \
         no field has them"
    );
    let refusal = run(&file, 1, Header([0, 0, 0, 0, 0, 0, 0, 1]), 16).unwrap_err();
    assert_eq!(
        refusal.to_string(),
        "question 10: the asked set has value bits 0x00000001 in word 7 that it doesn't care for"
    );
}

/// A file is asked by the calls of its own version.
#[test]
fn a_file_of_the_other_version() {
    let (one, two) = (pack("# nothing").unwrap(), pack("version 2").unwrap());
    assert_eq!(two, [2, 0, 2, 0x10, 0, 0, 0, 0x50]);
    for file in [&one, &two] {
        assert!(accept(file).is_ok());
    }
    let mut area = [0; 128];
    let not_1 = "question 2: the start is of version 2, not 1";
    let not_2 = "question 2: the start is of version 1, not 2";
    let wide = Query::all_wild(1).resized::<8>().unwrap();
    assert_eq!(
        verdict(&two, &Query::all_wild(1)).unwrap_err().to_string(),
        not_1
    );
    assert_eq!(verdict(&one, &wide).unwrap_err().to_string(), not_2);
    assert_eq!(
        list(&two, &mut area, &Query::lost())
            .unwrap_err()
            .to_string(),
        not_1
    );
    assert_eq!(list(&one, &mut area, &wide).unwrap_err().to_string(), not_2);
    assert_eq!(
        run(&two, 1, Header([0; 4]), 1).unwrap_err().to_string(),
        not_1
    );
    assert_eq!(
        run(&one, 1, Header([0; 8]), 1).unwrap_err().to_string(),
        not_2
    );
    assert_eq!(Fabric::read(&two).unwrap_err().to_string(), not_1);
}

/// A fabric with as many entries, on as few in-ports as can be.
fn with_entries<const N: usize>(number: usize) -> Fabric<N> {
    let entries = (0..number).map(|number| Entry {
        priority: 1,
        in_port: 100 + number as u16 / 64,
        out_port: 0,
        matching: HeaderSet::ALL_WILD,
        transfer: Default::default(),
        rewrite: HeaderSet::ALL_WILD,
    });
    Fabric {
        entries: entries.collect(),
        ..Fabric::default()
    }
}

#[test]
fn as_many_entries_as_the_version_has() {
    let reason = |file: &[u8]| accept(file).map_err(|refusal| refusal.to_string());
    let wide = |number| with_entries::<8>(number).to_bytes().unwrap();
    assert_eq!(reason(&wide(400)), Ok(()));
    assert_eq!(
        reason(&wide(401)),
        Err("question 7 at word 13601: entry 400 is one more than 400 entries".into())
    );
    let narrow = with_entries::<4>(512).to_bytes().unwrap();
    assert_eq!(reason(&narrow), Ok(()));
    // Question 1's limit is the version's.
    assert_eq!(
        reason(&wide(440)),
        Err("question 1: the file has 59848 bytes, more than 59784".into())
    );
    let longer = verdict(&wide(400), &Query::all_wild(1)).unwrap_err();
    assert_eq!(
        longer.to_string(),
        "question 1: the file has 54408 bytes, more than 40200"
    );
    let text: String = (0..401)
        .map(|number| format!("entry {} -> drop priority 1 match any\n", 1 + number / 64))
        .collect();
    assert_eq!(
        pack(&format!("version 2\n{text}")).unwrap_err().to_string(),
        "402:1: question 7 at word 13601: entry 400 is one more than 400 entries"
    );
    assert!(pack(&text).is_ok());
}

/// 16 hops of 61 beaters or more each, on a thread with the least stack.
#[test]
fn the_least_stack_is_enough() {
    let file = ring().to_bytes().unwrap();
    let wide = Query::all_wild(2).resized::<8>().unwrap();
    let thread = std::thread::Builder::new().stack_size(limits::STACK_BYTES);
    let call = move || {
        let mut area = Vec::new();
        let finds = list_growing(&file, &mut area, 1 << 24, &wide).unwrap();
        let deepest = finds.map(|find| find.hops).max();
        (verdict(&file, &wide).unwrap(), deepest)
    };
    let (verdict, deepest) = thread.spawn(call).unwrap().join().unwrap();
    assert!(matches!(verdict, Verdict::Reached { .. }));
    assert_eq!(deepest, Some(16));
}

/// Five switches in a ring, 11 to 15 their in-ports: what enters at port 1 goes
/// around for three laps, counted in dl_vlan_pcp, and then out at port 2. Each
/// in-port has denies on single bits of the Ethernet addresses, which each allow
/// writes, so that they all meet again at the next hop.
fn ring() -> Fabric<8> {
    let mut text =
        String::from("version 2\nedge 1 group 9 admits any\nedge 2 group 7 admits any\n");
    for switch in 1..=5 {
        text += &format!("link {} -> {}\n", 20 + switch, 11 + switch % 5);
    }
    let allows = [
        (1, vec![(22, 1, "any", ",dl_vlan_pcp=0")]),
        (11, vec![(21, 1, "any", "")]),
        (12, vec![(2, 2, "dl_vlan_pcp=3", ""), (22, 1, "any", "")]),
        (13, vec![(23, 1, "any", "")]),
        (14, vec![(24, 1, "any", "")]),
        (
            15,
            vec![
                (25, 1, "dl_vlan_pcp=0", ",dl_vlan_pcp=1"),
                (25, 1, "dl_vlan_pcp=1", ",dl_vlan_pcp=2"),
                (25, 1, "dl_vlan_pcp=2", ",dl_vlan_pcp=3"),
            ],
        ),
    ];
    for (in_port, allows) in allows {
        for (out_port, priority, matching, lap) in &allows {
            text += &format!(
                "entry {in_port} -> {out_port} priority {priority} match {matching} \
                 set dl_src=0x0,dl_dst=0x0{lap}\n"
            );
        }
        for bit in 0..limits::MOST_AT_IN_PORT - allows.len() {
            let (field, bit) = (["dl_src", "dl_dst"][bit / 48], 1_u64 << (bit % 48));
            text +=
                &format!("entry {in_port} -> drop priority 9 match {field}=0x{bit:x}/0x{bit:x}\n");
        }
    }
    fabric(&pack(&text).unwrap())
}

/// The text of a fabric says its version, and packing it gives the same file.
#[test]
fn a_version_is_shown_and_packed() {
    for openflow in [OpenFlow::V1_0, OpenFlow::V1_3] {
        let fabric = Fabric {
            openflow,
            ..fabric(&pack(FRAMES).unwrap())
        };
        let shown = show(&fabric);
        assert_eq!(shown.lines().nth(1), Some("version 2"));
        assert_eq!(
            shown.contains("\nopenflow 1.3\n"),
            openflow == OpenFlow::V1_3
        );
        let file = pack(&shown).unwrap();
        assert_eq!(file, fabric.to_bytes().unwrap());
        assert_eq!(Version::of_file(&file), Version::V2);
    }
}
