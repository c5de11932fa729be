//! Who else might take a packet, and where a fabric leaves a choice: held to the
//! rule as it is written, over every header of small fabrics.

mod common;

use std::cell::Cell;
use std::collections::BTreeSet;

use common::{to_host, transfers, Seen};
use mwishovala::{list_growing, run, text, verdict, Entry, Fabric, Fate, Find, Header};
use mwishovala::{Equals, HeaderSet, Tie, Verdict};
use reference::file::write;
use reference::random::{
    any, cases, dead_ends, leaky_ring, list_query, query, small, small_ring, ties, Rng, Small,
};
use reference::set::{from_words, to_words};

/// "Any matching entry of the highest priority may take the packet."
fn takers(fabric: &reference::Fabric, in_port: u16, header: u128) -> Vec<u16> {
    let entries = (0..).zip(&fabric.entries);
    let matching: Vec<(u16, u16)> = entries
        .filter(|(_, entry)| entry.in_port == in_port && entry.matching.contains(header))
        .map(|(number, entry)| (entry.priority, number))
        .collect();
    let highest = matching.iter().map(|(priority, _)| *priority).max();
    let of_highest = matching
        .iter()
        .filter(|(priority, _)| Some(*priority) == highest);
    of_highest.map(|(_, number)| *number).collect()
}

/// At each hop of this way, the header of a packet that begins with this one, and
/// all that may take it.
fn takers_along(fabric: &reference::Fabric, header: u128, way: &[u16]) -> Vec<(u128, Vec<u16>)> {
    let mut next = header;
    let hop = |&number: &u16| {
        let (entry, here) = (&fabric.entries[usize::from(number)], next);
        next = entry.apply(here);
        (here, takers(fabric, entry.in_port, here))
    };
    way.iter().map(hop).collect()
}

fn small_fabric(rng: &mut Rng) -> Small {
    match rng.below(5) {
        0 => small(rng),
        1 => small_ring(rng),
        2 => leaky_ring(rng),
        3 => dead_ends(rng),
        _ => ties(rng),
    }
}

/// Every header over these bits.
fn headers(bits: &[u32]) -> impl Iterator<Item = u128> + '_ {
    (0..1u32 << bits.len()).map(move |choice| {
        let chosen = (0..)
            .zip(bits)
            .filter(|(place, _)| choice >> place & 1 == 1);
        chosen.fold(0, |header, (_, bit)| header | 1 << bit)
    })
}

fn holds(set: &HeaderSet, header: u128) -> bool {
    set.contains(&Header(to_words(header)))
}

/// In a find stands who might take all or some of its packets, and nobody else; also
/// in one of packets that are lost.
#[test]
fn equals_of_finds() {
    let (chosen, alone) = (Cell::new(0), Cell::new(0));
    let [moved, lost]: [Seen; 2] = Default::default();
    cases(13_000_000, 3000, |rng| {
        let Small { fabric, bits } = small_fabric(rng);
        let query = list_query(rng, &fabric, 20_000);
        let (file, asked) = (write(&fabric), to_host(&query));
        let mut area = Vec::new();
        let Ok(finds) = list_growing(&file, &mut area, 1 << 22, &asked) else {
            return;
        };
        let read = Fabric::read(&file).unwrap();
        let equals = Equals::of(&read);
        for find in finds.take(40) {
            moved.add(transfers(&fabric, &find.entries).into());
            lost.add(query.is_of_the_lost().into());
            let told = equals.along(&find);
            assert_eq!(told, equals_by_the_rule(&fabric, &bits, &find));
            for equals in told {
                let cell = if equals.is_empty() { &alone } else { &chosen };
                cell.set(cell.get() + 1);
            }
        }
    });
    let replayed = std::env::var_os("SEED").is_some();
    assert!(replayed || chosen.get() > 1000 && alone.get() > 1000);
    moved.at_least(1000);
    lost.at_least(1000);
}

/// Bits that no entry cares for don't count: where the find is wild they are 0.
fn equals_by_the_rule(fabric: &reference::Fabric, bits: &[u32], find: &Find) -> Vec<Vec<u16>> {
    let other_bits = bits
        .iter()
        .fold(!0, |others: u128, bit| others & !(1 << bit));
    let fixed = from_words(find.set.value) & other_bits;
    let mut equals = vec![BTreeSet::new(); find.entries.len()];
    for header in headers(bits).map(|header| header | fixed) {
        if !holds(&find.set, header) {
            continue;
        }
        let along = takers_along(fabric, header, &find.entries);
        for ((equals, (_, takers)), number) in equals.iter_mut().zip(along).zip(&find.entries[..]) {
            assert!(takers.contains(number), "the way can be taken");
            equals.extend(takers.into_iter().filter(|taker| taker != number));
        }
    }
    equals.into_iter().map(Vec::from_iter).collect()
}

/// A verdict's way, hop by hop; and the run of its packet stops at the first hop
/// where there is a choice.
#[test]
fn hops_of_verdicts() {
    let [chosen, alone, moved]: [Seen; 3] = Default::default();
    cases(13_100_000, 6000, |rng| {
        let made = match rng.once_in(2) {
            true => small_fabric(rng).fabric,
            false => any(rng),
        };
        let (file, asked) = (write(&made), to_host(&query(rng, &made, 20_000)));
        let Ok(Verdict::Reached {
            port,
            header,
            entries,
            ..
        }) = verdict(&file, &asked)
        else {
            return;
        };
        let fabric = Fabric::read(&file).unwrap();
        let hops = fabric.hops(&header, &entries).unwrap();
        let along = takers_along(&made, from_words(header.0), &entries);
        assert_eq!(hops.len(), entries.len());
        for ((hop, (here, takers)), number) in hops.iter().zip(&along).zip(&entries[..]) {
            assert_eq!((&hop.number, &hop.takers), (number, takers));
            assert_eq!(hop.header, Header(to_words(*here)));
            let others = takers.iter().copied().filter(|taker| taker != number);
            assert_eq!(hop.equals(), others.collect::<Vec<_>>());
            assert!(takers.contains(number));
        }
        let way = run(&file, port.into(), header, asked.hops).unwrap();
        let choice = along.iter().position(|(_, takers)| takers.len() > 1);
        let seen = match choice {
            Some(hop) => {
                assert_eq!((way.fate, way.hops as usize), (Fate::Tied, hop));
                assert_eq!(way.entries[..], entries[..hop]);
                assert_eq!(way.header, hops[hop].header);
                assert_eq!(fabric.takers(way.port, &way.header), along[hop].1);
                &chosen
            }
            None => {
                assert_eq!((way.fate, u32::from(way.port)), (Fate::Left, asked.port));
                assert_eq!(way.entries, entries);
                &alone
            }
        };
        seen.add(1);
        moved.add(transfers(&made, &entries).into());
    });
    for seen in [chosen, alone, moved] {
        seen.at_least(300);
    }
}

/// A way of entries that the fabric doesn't have is none.
#[test]
fn no_hops_of_other_fabrics() {
    let fabric = read("entry 1 -> 2 priority 1 match any\n");
    assert!(fabric.hops(&Header::default(), &[0, 0]).is_some());
    assert!(fabric.hops(&Header::default(), &[0, 1]).is_none());
}

fn read(said: &str) -> Fabric {
    Fabric::read(&text::pack(said).unwrap()).unwrap()
}

/// Two entries tie exactly if some header is taken by either.
#[test]
fn ties_are_all_that_matter() {
    let (tied, hidden) = (Cell::new(0), Cell::new(0));
    cases(13_200_000, 6000, |rng| {
        let Small { fabric, bits } = small_fabric(rng);
        let mut expected = BTreeSet::new();
        for in_port in in_ports(&fabric) {
            for header in headers(&bits) {
                let takers = takers(&fabric, in_port, header);
                for (place, &one) in takers.iter().enumerate() {
                    expected.extend(takers[place + 1..].iter().map(|&other| [one, other]));
                }
            }
        }
        let read = Fabric::read(&write(&fabric)).unwrap();
        let told = read.ties();
        let pairs: Vec<[u16; 2]> = told.iter().map(|tie| tie.entries).collect();
        assert_eq!(pairs, Vec::from_iter(expected));
        told.iter().for_each(|tie| check_tie(&fabric, &read, tie));
        tied.set(tied.get() + told.len());
        hidden.set(hidden.get() + overlapping(&read) - told.len());
    });
    let replayed = std::env::var_os("SEED").is_some();
    assert!(replayed || tied.get() > 1000 && hidden.get() > 500);
}

fn in_ports(fabric: &reference::Fabric) -> BTreeSet<u16> {
    fabric.entries.iter().map(|entry| entry.in_port).collect()
}

/// What a tie says of its entries and its header.
fn check_tie(fabric: &reference::Fabric, read: &Fabric, tie: &Tie) {
    let [one, other] = tie.entries.map(|number| &read.entries[usize::from(number)]);
    assert_eq!([one.in_port, other.in_port], [tie.in_port; 2]);
    assert_eq!([one.priority, other.priority], [tie.priority; 2]);
    let does = |entry: &Entry| (entry.out_port, entry.transfer, entry.rewrite);
    assert_eq!(tie.same, does(one) == does(other));
    let header = tie.header.expect("a small fabric has few parts");
    let takers = takers(fabric, tie.in_port, from_words(header.0));
    assert!(tie.entries.iter().all(|entry| takers.contains(entry)));
}

/// How many pairs of one in-port and priority have matches that meet.
fn overlapping(fabric: &Fabric) -> usize {
    let entries = &fabric.entries;
    let rank = |entry: &Entry| (entry.in_port, entry.priority);
    let later = entries.iter().enumerate().flat_map(|(place, one)| {
        let others = entries[place + 1..].iter();
        others.filter(|other| rank(other) == rank(one) && other.matching.meets(&one.matching))
    });
    later.count()
}

/// Two entries below others that hold every header. The first so many of these
/// each leave two parts of what they meet; the last four leave nothing of any.
fn covered(splits: u32) -> Fabric {
    let mut said = String::from("entry 1 -> drop priority 1 match any\n");
    said += "entry 1 -> 2 priority 1 match any\n";
    let splits = (0..splits).map(|place| 3u32 << (2 * place));
    let splits = splits.map(|bits| format!("nw_src=0x{bits:08x}/0x{bits:08x}"));
    let cover = (0..4).map(|last| format!("nw_dst=0x{last:08x}/0x00000003"));
    for (set, priority) in splits.chain(cover).zip(2..) {
        said += &format!("entry 1 -> drop priority {priority} match {set}\n");
    }
    read(&said)
}

/// Where it takes too many parts to say whether they tie, they may.
#[test]
fn too_many_parts_are_not_looked_at() {
    assert_eq!(covered(5).ties(), []);
    let perhaps = covered(10).ties();
    assert_eq!(perhaps.len(), 1);
    assert_eq!((perhaps[0].entries, perhaps[0].header), ([0, 1], None));
}
