//! Packets that hosts can send: why a header is none, and one of the same find
//! that is.

mod common;

use std::cell::Cell;

use common::{to_host, transfers, Seen};
use mwishovala::frame::{instead, misfits, sendable_in};
use mwishovala::{list_growing, run, text, verdict};
use mwishovala::{Fabric, Fate, Field, Find, Header, HeaderSet, Query, Verdict};
use reference::file::write;
use reference::random::{any, cases, query, Rng};
use reference::set::from_words;
use reference::ways::Packet;

fn lowest(set: &str) -> Header {
    set.parse::<HeaderSet>().unwrap().lowest()
}

#[test]
fn why_a_header_is_not_sent() {
    let why = [
        ("nw_proto=tcp,tp_src=65535,tp_dst=80,dl_vlan=4095", vec![]),
        ("nw_proto=udp,tp_dst=53,dl_vlan=65535,nw_tos=0xfc", vec![]),
        ("nw_proto=icmp,tp_src=8,tp_dst=255", vec![]),
        ("nw_proto=47", vec![]),
        ("any", vec!["nw_proto 0: only a frame made by hand has it"]),
        (
            "nw_proto=tcp,dl_vlan=4096",
            vec!["dl_vlan 4096: a tag has 0 to 4095, and 65535 is no tag"],
        ),
        (
            "nw_proto=tcp,dl_vlan=65534,nw_tos=1",
            vec![
                "dl_vlan 65534: a tag has 0 to 4095, and 65535 is no tag",
                "nw_tos 1: OpenFlow 1.0 reads its two lowest bits as 0",
            ],
        ),
        (
            "nw_proto=47,tp_src=1,tp_dst=2",
            vec![
                "tp_src 1: only tcp, udp and icmp have it",
                "tp_dst 2: only tcp, udp and icmp have it",
            ],
        ),
        (
            "nw_proto=icmp,tp_src=256,tp_dst=255",
            vec!["tp_src 256: icmp has 0 to 255 there"],
        ),
    ];
    for (set, expected) in why {
        let said: Vec<String> = misfits(&lowest(set))
            .iter()
            .map(|m| m.to_string())
            .collect();
        assert_eq!(said, expected, "{set}");
    }
}

#[test]
fn why_a_frame_is_not_sent() {
    let why = [
        (
            "dl_type=ip,nw_proto=tcp,tp_dst=80,dl_vlan=5,dl_vlan_pcp=7",
            vec![],
        ),
        (
            "dl_type=arp,nw_proto=2,nw_src=10.0.0.1,nw_dst=10.0.0.2",
            vec![],
        ),
        (
            "dl_type=ipv6,dl_vlan=65535,dl_src=02:00:00:00:00:01",
            vec![],
        ),
        ("dl_type=0x0600", vec![]),
        ("any", vec!["dl_type 0x0000: types are 0x0600 and above"]),
        (
            "dl_type=0x05ff",
            vec!["dl_type 0x05ff: types are 0x0600 and above"],
        ),
        (
            "dl_type=ip",
            vec!["nw_proto 0: only a frame made by hand has it"],
        ),
        (
            "dl_type=arp",
            vec!["nw_proto 0: only a frame made by hand has it"],
        ),
        (
            "dl_type=ipv6,dl_vlan_pcp=8",
            vec!["dl_vlan_pcp 8: a tag has 0 to 7"],
        ),
        (
            "dl_type=ipv6,dl_vlan=65535,dl_vlan_pcp=1",
            vec!["dl_vlan_pcp 1: a frame without a tag has 0"],
        ),
        (
            "dl_type=arp,nw_proto=1,tp_dst=80,nw_tos=4",
            vec![
                "tp_dst 80: a frame of this dl_type hasn't got it",
                "nw_tos 4: a frame of this dl_type hasn't got it",
            ],
        ),
        (
            "dl_type=ipv6,nw_src=10.0.0.1,nw_proto=tcp",
            vec![
                "nw_src 10.0.0.1: a frame of this dl_type hasn't got it",
                "nw_proto 6: a frame of this dl_type hasn't got it",
            ],
        ),
    ];
    for (set, expected) in why {
        let header = set.parse::<HeaderSet<8>>().unwrap().lowest();
        let said: Vec<String> = misfits(&header).iter().map(|m| m.to_string()).collect();
        assert_eq!(said, expected, "{set}");
    }
}

/// The same as the product's, by its fields' values alone.
fn is_sendable<const N: usize>(header: &Header<N>) -> bool {
    let get = |field| header.get(field);
    let (source, destination) = (get(Field::TP_SRC), get(Field::TP_DST));
    let transported = match get(Field::NW_PROTO) {
        0 => false,
        6 | 17 => true,
        1 => source < 256 && destination < 256,
        _ => source == 0 && destination == 0,
    };
    let ip = transported && get(Field::NW_TOS) % 4 == 0;
    let no_ports = source == 0 && destination == 0 && get(Field::NW_TOS) == 0;
    let no_addresses = get(Field::NW_SRC) == 0 && get(Field::NW_DST) == 0;
    let carried = match (N, get(Field::DL_TYPE)) {
        (4, _) | (_, 0x0800) => ip,
        (_, 0x0806) => no_ports && get(Field::NW_PROTO) != 0,
        (_, number) => number >= 0x0600 && no_ports && no_addresses && get(Field::NW_PROTO) == 0,
    };
    let tagged = match get(Field::DL_VLAN) {
        65535 => get(Field::DL_VLAN_PCP) == 0,
        vlan => vlan < 4096 && get(Field::DL_VLAN_PCP) < 8,
    };
    carried && tagged
}

#[test]
fn one_is_found_if_there_is_one() {
    check_found(12_500_000, |rng| {
        let set = nearly_fixed(rng);
        with_wild_bits(rng, set, |rng| (rng.between(2, 3), rng.below(32)))
    });
}

/// Of version 2, with types and tags that are near the edge too.
#[test]
fn a_frame_is_found_if_there_is_one() {
    check_found(12_550_000, |rng| {
        let mut set: HeaderSet<8> = nearly_fixed(rng).resized().unwrap();
        // Else hardly one is found: all would have to be right by chance.
        if !rng.once_in(3) {
            set.value[..3].fill(0);
            set.value[3] = rng.one_of([0xffff_0000, 0x0005_0000]) | rng.one_of([0, 1, 6]);
        }
        let number = rng.one_of([0x0800, 0x0806, 0x86dd, 0x05ff, 0x0600, 0, 0x0801]);
        let pcp = rng.one_of([0, 0, 0, 7, 8]);
        set = HeaderSet::only(Header(set.value));
        set.value[7] = number << 16 | pcp << 8;
        let bits = [
            (2, 0),
            (2, 31),
            (3, 3),
            (3, 9),
            (3, 20),
            (3, 30),
            (7, 9),
            (7, 11),
        ];
        with_wild_bits(rng, set, |rng| match rng.once_in(2) {
            true => (7, rng.between(16, 31)),
            false => rng.one_of(bits),
        })
    });
}

/// A set with few wild bits has one exactly if one of all its headers is one.
fn check_found<const N: usize>(first_seed: u64, sets: impl Fn(&mut Rng) -> HeaderSet<N>) {
    let (found, none) = (Cell::new(0), Cell::new(0));
    cases(first_seed, 3000, |rng| {
        let set = sets(rng);
        let outside = rng.once_in(2).then(|| around(rng, &set));
        let inside = |header: &Header<N>| outside.is_some_and(|set| set.contains(header));
        let mut all = headers_of(&set).into_iter();
        let expected = all.any(|header| is_sendable(&header) && !inside(&header));
        match sendable_in(&set, outside.as_ref()) {
            Some(header) => {
                assert!(expected && set.contains(&header) && !inside(&header));
                assert!(is_sendable(&header) && misfits(&header).is_empty());
                found.set(found.get() + 1);
            }
            None => {
                assert!(!expected, "{set}, outside {outside:?}");
                none.set(none.get() + 1);
            }
        }
    });
    let replayed = found.get() + none.get() <= 1;
    assert!(replayed || found.get() > 300 && none.get() > 300);
}

/// Values that are near the edge of what can be sent.
fn nearly_fixed(rng: &mut Rng) -> HeaderSet {
    let any = rng.draw() as u32;
    let ports = rng.one_of([0, 80, 0x0050_0000, 0x0100_00ff, any]);
    let vlan = rng.one_of([0, 4095, 4096, 65535, 65534]);
    let (tos, protocol) = (rng.one_of([0, 4, 1, 2]), rng.one_of([0, 1, 6, 17, 47]));
    HeaderSet::only(Header([1, 2, ports, vlan << 16 | tos << 8 | protocol]))
}

/// This set with up to ten of these bits wild.
fn with_wild_bits<const N: usize>(
    rng: &mut Rng,
    mut set: HeaderSet<N>,
    bits: impl Fn(&mut Rng) -> (usize, usize),
) -> HeaderSet<N> {
    for _ in 0..rng.below(11) {
        let (word, bit) = bits(rng);
        set.care[word] &= !(1 << bit);
        set.value[word] &= set.care[word];
    }
    set
}

/// A set that has some of this one's headers, or all.
fn around<const N: usize>(rng: &mut Rng, set: &HeaderSet<N>) -> HeaderSet<N> {
    let keep = |rng: &mut Rng| rng.draw() as u32 | rng.draw() as u32;
    let mut care = set.care.map(|care| care & keep(rng));
    let mut value = std::array::from_fn(|word| set.value[word] & care[word]);
    if rng.once_in(2) {
        let (word, bit) = (rng.between(2, 3), rng.below(32));
        care[word] |= 1 << bit;
        value[word] |= rng.draw() as u32 & 1 << bit;
    }
    HeaderSet { care, value }
}

fn headers_of<const N: usize>(set: &HeaderSet<N>) -> Vec<Header<N>> {
    let fields = HeaderSet::only(Header([0; N])).care;
    let wild: Vec<(usize, u32)> = (0..32 * N)
        .map(|bit| (bit / 32, 1 << (bit % 32)))
        .filter(|(word, mask)| fields[*word] & !set.care[*word] & mask != 0)
        .collect();
    let with = |choice: usize| {
        let mut words = set.value;
        for (place, (word, mask)) in wild.iter().enumerate() {
            words[*word] |= if choice >> place & 1 == 1 { *mask } else { 0 };
        }
        Header(words)
    };
    (0..1 << wild.len()).map(with).collect()
}

/// The find of a verdict's packet is the list's, and what can be sent of it
/// may take the same way to the target and is foreign. The run of it goes the
/// same way as far as there is no choice.
#[test]
fn finds_and_what_to_send_instead() {
    let [sent, tied, moved]: [Seen; 3] = Default::default();
    cases(12_600_000, 4000, |rng| {
        let made = any(rng);
        let file = write(&made);
        let query = reference::Query {
            budget: 20_000,
            ..query(rng, &made, 1)
        };
        let asked = to_host(&query);
        let Ok(Verdict::Reached {
            port,
            header,
            entries,
            ..
        }) = verdict(&file, &asked)
        else {
            return;
        };
        let reached = verdict(&file, &asked).unwrap();
        let fabric = Fabric::read(&file).unwrap();
        let set = reached.find(&fabric, &asked).expect("it has a find");
        assert!(set.contains(&header));
        let mut area = Vec::new();
        if let Ok(mut finds) = list_growing(&file, &mut area, 1 << 22, &asked) {
            let same = |find: &Find| find.port == port && find.entries == entries;
            assert!(finds.any(|find| same(&find) && find.set == set));
        }
        if let Some(header) = instead(&file, &asked, &reached) {
            assert!(set.contains(&header) && is_sendable(&header));
            let packet = Packet {
                fabric: &made,
                start: port,
                header: from_words(header.0),
                limit: query.limit,
            };
            let numbers: Vec<u32> = entries.iter().map(|&entry| entry.into()).collect();
            let followed = packet.follow(&numbers).expect("each entry may take it");
            assert!(followed.arrives(&query));
            moved.add(transfers(&made, &entries).into());
            let way = run(&file, port.into(), header, asked.hops).unwrap();
            match way.fate {
                Fate::Tied => {
                    assert!(way.entries.len() < entries.len());
                    assert!(entries.starts_with(&way.entries));
                    tied.add(1);
                }
                _ => assert_eq!((way.fate, way.entries), (Fate::Left, entries)),
            }
            let (edge, target) = (fabric.edge(port).unwrap(), asked.port as u16);
            let own = edge.group == fabric.edge(target).unwrap().group;
            assert!(!own || !edge.admitted.contains(&header));
            sent.add(1);
        }
    });
    sent.at_least(200);
    tied.at_least(20);
    moved.at_least(50);
}

/// In its own group a packet has to be outside what is admitted; where all that
/// is left can't be sent, there is none.
#[test]
fn own_groups_packets() {
    let of = |admitted: &str| {
        let file = text::pack(&format!(
            "edge 1 group 7 admits {admitted}\n\
             edge 2 group 7 admits any\n\
             entry 1 -> 2 priority 1 match nw_proto=tcp,tp_dst=0x0000/0xff00\n"
        ))
        .unwrap();
        let asked = Query::all_wild(2);
        let reached = verdict(&file, &asked).unwrap();
        instead(&file, &asked, &reached).map(|header| header.to_string())
    };
    assert_eq!(
        of("tp_dst=0x0000/0x0080").unwrap(),
        "nw_src=0.0.0.0,nw_dst=0.0.0.0,tp_src=0,tp_dst=128,dl_vlan=65535,nw_tos=0,nw_proto=6"
    );
    assert_eq!(of("nw_tos=0x00/0x01"), None);
    assert_eq!(instead(&[], &Query::all_wild(2), &isolated()), None);
}

/// By a tie, where the run of it stops.
#[test]
fn what_to_send_where_entries_tie() {
    let asked = Query::all_wild(2);
    let packed = |said: &str| {
        let edges = "edge 1 group 9 admits any\nedge 2 group 7 admits any\n";
        text::pack(&format!("{edges}{said}")).unwrap()
    };
    let tied = packed(
        "entry 1 -> 2 priority 5 match nw_dst=10.7.0.2\n\
         entry 1 -> drop priority 5 match any\n",
    );
    let reached = verdict(&tied, &asked).unwrap();
    let header = instead(&tied, &asked, &reached).expect("it may take the way");
    assert!(is_sendable(&header));
    assert_eq!(run(&tied, 1, header, 16).unwrap().fate, Fate::Tied);
    // In these fabrics no packet can take that verdict's way to the target: its
    // entry takes in elsewhere, sends out elsewhere, or is beaten.
    for other in [
        "entry 3 -> 2 priority 5 match nw_dst=10.7.0.2\n",
        "entry 1 -> 3 priority 5 match nw_dst=10.7.0.2\n",
        "entry 1 -> 2 priority 5 match nw_dst=10.7.0.2\n\
         entry 1 -> drop priority 6 match any\n",
    ] {
        assert_eq!(instead(&packed(other), &asked, &reached), None, "{other}");
    }
}

fn isolated() -> Verdict {
    let file = text::pack("edge 1 group 7 admits any").unwrap();
    verdict(&file, &Query::all_wild(1)).unwrap()
}
