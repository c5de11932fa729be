//! The naive checks find what is wrong in programs that take Ethernet fields in other
//! ways than document 02's 2.6 says.

mod common;

use std::cell::RefCell;
use std::collections::BTreeMap;

use common::{on_cases, Seen};
use reference::brute::{arrivals, check_list, check_run, check_verdict, Arrivals};
use reference::random::Small;
use reference::ternary::{self, joined, Carve, Event, Ternary};
use reference::ways::Packet;
use reference::wide::{Entry, Fabric, Query, Rewrite, Set};
use reference::{OpenFlow, Transfer, Wide};

/// What has to come in by an entry, for what is wanted behind it.
type Undo = fn(&Entry, &Ternary) -> Option<Ternary>;
/// What a program takes words 4 to 7 of a set or rewrite for.
type Read = fn(u128) -> u128;

const X: u8 = b'x';
/// Where dl_src, dl_dst and dl_type begin in a string.
const DL_SRC: usize = 128;
const DL_DST: usize = 176;
const DL_TYPE: usize = 224;
/// Beyond this a case is skipped.
const MOST_EVENTS: usize = 10_000;

/// Each bit of dl_src with the same of dl_dst.
fn of_both_addresses() -> impl Iterator<Item = (usize, usize)> {
    (DL_SRC..DL_DST).zip(DL_DST..DL_TYPE)
}

/// What is wrong with a program's undoing of entries.
const WRONG_UNDOS: [(&str, Undo); 5] = [
    ("what is written stays wanted", |entry, wanted| {
        let mut before = ternary::undo(entry, wanted)?;
        before[DL_SRC..].copy_from_slice(&wanted[DL_SRC..]);
        Some(before)
    }),
    ("what is written isn't what is wanted", |entry, wanted| {
        let written = ternary::from_set(&entry.rewrite.written());
        let mut open = *wanted;
        for bit in (DL_SRC..256).filter(|&bit| written[bit] != X) {
            open[bit] = X;
        }
        ternary::undo(entry, &open)
    }),
    ("what is wanted is forgotten", |entry, wanted| {
        let mut before = ternary::undo(entry, wanted)?;
        before[DL_SRC..].fill(X);
        Some(before)
    }),
    ("a swap of dl_src and dl_dst too", |entry, wanted| {
        let mut before = ternary::undo(entry, wanted)?;
        for (src, dst) in of_both_addresses().filter(|_| entry.transfer == Transfer::Swap) {
            before.swap(src, dst);
        }
        Some(before)
    }),
    ("a copy of dl_src too", |entry, wanted| {
        let mut before = ternary::undo(entry, wanted)?;
        for (src, dst) in of_both_addresses().filter(|_| entry.transfer == Transfer::Copy) {
            (before[src], before[dst]) = (joined(before[src], before[dst])?, X);
        }
        Some(before)
    }),
];

/// The Ethernet bits that one cares for and a part doesn't.
fn free_bits(part: &Ternary, by: &Ternary) -> impl Iterator<Item = usize> {
    let (part, by) = (*part, *by);
    (DL_SRC..256).filter(move |&bit| part[bit] == X && by[bit] != X)
}

/// The parts, of those that have an Ethernet bit opposite each changed so; the bits
/// are all of these, and how many are before its own.
fn later_parts(
    part: &Ternary,
    by: &Ternary,
    change: fn(&mut Ternary, &[usize], usize),
) -> Vec<Ternary> {
    let mut parts = ternary::carved(part, by);
    let bits: Vec<usize> = free_bits(part, by).collect();
    if parts[..] != [*part] {
        let earlier = parts.len() - bits.len();
        for (number, part) in parts[earlier..].iter_mut().enumerate() {
            change(part, &bits, number);
        }
    }
    parts
}

/// Parts that overlap are each right, and so is a verdict by them.
const OVERLAPPING: &str = "the earlier bits are open";

/// What is wrong with a program's carving.
const WRONG_CARVES: [(&str, Carve); 5] = [
    ("a beater's Ethernet bits are ignored", |part, by| {
        let mut by = *by;
        by[DL_SRC..].fill(X);
        ternary::carved(part, &by)
    }),
    ("parts that are apart there are carved", |part, by| {
        let mut alike = *by;
        for bit in (DL_SRC..256).filter(|&bit| part[bit] != X && by[bit] != X) {
            alike[bit] = part[bit];
        }
        ternary::carved(part, &alike)
    }),
    ("it ends after word 3", |part, by| {
        let mut parts = ternary::carved(part, by);
        if parts[..] != [*part] {
            parts.truncate(parts.len() - free_bits(part, by).count());
        }
        parts
    }),
    ("the bit is as in the beater", |part, by| {
        later_parts(part, by, |part, bits, number| {
            let own = &mut part[bits[number]];
            *own = if *own == b'0' { b'1' } else { b'0' };
        })
    }),
    (OVERLAPPING, |part, by| {
        later_parts(part, by, |part, bits, number| {
            bits[..number].iter().for_each(|&bit| part[bit] = X);
        })
    }),
];

/// Whether the list or the verdict, which the lost don't have, is noticed if these
/// are its events.
fn notices(
    events: Option<Vec<Event>>,
    made: &Small<Wide>,
    read: &Fabric,
    query: &Query,
    arrivals: &Arrivals<Wide>,
) -> [bool; 2] {
    let Some(events) = events else {
        return [false; 2];
    };
    let listed = ternary::list(read, query, &events).unwrap();
    let judged = ternary::verdict(read, query, &events);
    let is_wrong = |words: Vec<u32>| check_verdict(&made.fabric, arrivals, query, &words).is_err();
    [
        check_list(&made.bits, arrivals, &listed).is_err(),
        judged.is_some_and(is_wrong),
    ]
}

/// Calls this on many cases, with what arrives.
fn with_arrivals(seeds: (u64, u64), check: impl Fn(&Small<Wide>, &Query, &Arrivals<Wide>)) {
    on_cases(seeds, |made: &Small<Wide>, query, ends, _| {
        if !query.is_of_the_lost() || made.fabric.openflow == OpenFlow::V1_0 {
            check(made, query, &arrivals(ends, query));
        }
    });
}

/// Each wrong way is noticed often, the right one never.
#[test]
fn entries_undone_and_parts_carved_wrongly() {
    let undos = WRONG_UNDOS.map(|(wrong, undo)| (wrong, undo, ternary::carved as Carve));
    let carves = WRONG_CARVES.map(|(wrong, carve)| (wrong, ternary::undo as Undo, carve));
    let wrongs = [&undos[..], &carves].concat();
    let noticed: Vec<[Seen; 2]> = wrongs.iter().map(|_| Default::default()).collect();
    with_arrivals((2_400_000, 6000), |made, query, arrivals| {
        let notices = |undo: Undo, carve: Carve| {
            let fabric = &made.fabric;
            let events = ternary::events_carved_by(carve, undo, fabric, query, MOST_EVENTS);
            notices(events, made, fabric, query, arrivals)
        };
        assert_eq!(notices(ternary::undo, ternary::carved), [false; 2]);
        for ((_, undo, carve), [lists, verdicts]) in wrongs.iter().zip(&noticed) {
            let [list, verdict] = notices(*undo, *carve);
            lists.count(list);
            verdicts.count(verdict);
        }
    });
    for ((wrong, ..), [lists, verdicts]) in wrongs.iter().zip(noticed) {
        println!("{wrong} {lists:?} {verdicts:?}");
        lists.at_least(40);
        match *wrong == OVERLAPPING {
            true => verdicts.at_most(0),
            false => verdicts.at_least(10),
        }
    }
}

/// What is wrong with a program's reading of words 4 to 7.
const WRONG_READS: [(&str, Read); 6] = [
    ("they are ignored", |_| 0),
    ("dl_dst comes first", |bits| {
        let (src, dst, others) = (bits >> 80, bits << 48 >> 80, bits & 0xffff_ffff);
        dst << 80 | src << 32 | others
    }),
    ("from the last word to the first", |bits| {
        (0..4).fold(0, |read, word| {
            read << 32 | bits >> (32 * word) & 0xffff_ffff
        })
    }),
    ("a word too far", |bits| bits.rotate_left(32)),
    ("dl_type is ignored", |bits| bits & !0xffff_0000),
    ("dl_vlan_pcp is ignored", |bits| bits & !0xff00),
];

fn misread(set: Set, read: Read) -> Set {
    let of = |bits: Wide| Wide {
        ethernet: read(bits.ethernet),
        ..bits
    };
    Set {
        care: of(set.care),
        value: of(set.value),
    }
}

/// Where a fabric has sets and rewrites, and how they are all read so.
type Part = (&'static str, fn(&mut Fabric, Read));

const PARTS: [Part; 3] = [
    ("matches", |fabric, read| {
        for entry in &mut fabric.entries {
            entry.matching = misread(entry.matching, read);
        }
    }),
    ("rewrites", |fabric, read| {
        for entry in &mut fabric.entries {
            entry.rewrite = Rewrite::to(misread(entry.rewrite.written(), read));
        }
    }),
    ("admitted sets", |fabric, read| {
        for edge in &mut fabric.edges {
            edge.admitted = misread(edge.admitted, read);
        }
    }),
];

/// What a fabric is taken for by each wrong reading of each part.
fn misreadings(fabric: &Fabric, parts: &[Part]) -> Vec<(String, Fabric)> {
    let wrongs = WRONG_READS.iter().flat_map(|wrong| {
        let of_a_part = |(part, misread): &Part| {
            let mut taken_for = fabric.clone();
            misread(&mut taken_for, wrong.1);
            (format!("{part}: {}", wrong.0), taken_for)
        };
        parts.iter().map(of_a_part).collect::<Vec<_>>()
    });
    wrongs.collect()
}

/// Each is noticed, but for admitted sets by verdicts alone.
#[test]
fn words_read_wrongly() {
    let seen = RefCell::new(BTreeMap::new());
    with_arrivals((2_410_000, 4000), |made, query, arrivals| {
        for (wrong, fabric) in misreadings(&made.fabric, &PARTS) {
            let events = ternary::events(&fabric, query, MOST_EVENTS);
            let noticed = notices(events, made, &fabric, query, arrivals);
            let mut seen = seen.borrow_mut();
            let [lists, verdicts]: &mut [Seen; 2] = seen.entry(wrong).or_default();
            lists.count(noticed[0]);
            verdicts.count(noticed[1]);
        }
    });
    for (wrong, [lists, verdicts]) in seen.take() {
        println!("{wrong} {lists:?} {verdicts:?}");
        match wrong.starts_with("admitted sets") {
            true => lists.at_most(0),
            false => lists.at_least(20),
        }
        verdicts.at_least(5);
    }
}

/// Each wrong run is noticed exactly if it has other words.
#[test]
fn runs_of_words_read_wrongly() {
    let seen = RefCell::new(BTreeMap::new());
    on_cases((2_420_000, 300), |made: &Small<Wide>, _, ends, _| {
        for (wrong, fabric) in misreadings(&made.fabric, &PARTS[..2]) {
            let fabric = &fabric;
            let mut seen = seen.borrow_mut();
            let noticed: &mut Seen = seen.entry(wrong).or_default();
            for (packet, ends) in ends {
                let words = Packet { fabric, ..*packet }.run().words();
                let is_other = words != packet.run().words();
                let is_noticed = check_run(packet, ends, &words.unwrap()).is_err();
                assert_eq!(is_noticed, is_other);
                noticed.count(is_noticed);
            }
        }
    });
    for (wrong, noticed) in seen.take() {
        println!("{wrong} {noticed:?}");
        noticed.at_least(100);
    }
}
