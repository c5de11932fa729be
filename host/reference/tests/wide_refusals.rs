//! What version 2 refuses other than version 1, and files of the one in calls of the
//! other.

mod common;

use common::{answer, Call};
use reference::calls;
use reference::examples::{
    edge, entry, fabric, fabric_f, link, run_query, wide_f, wide_fabric, wide_file_of, wide_record,
    wild_query,
};
use reference::file::{read, read_as, to_le_bytes, to_le_words, write};
use reference::random::{any, cases, damage, inflict, largest, wide_cases, Damage, Rng, WideRng};
use reference::wide::{list, run, verdict, widened, Edge, Entry, Fabric, Query, Rewrite, Set};
use reference::{Bits, Refusal, Wide};

const END: u32 = 0x50000000;

/// The refusal of a version 2 file of these words after a right start.
fn refusal_of(records: &[u32]) -> Option<(u8, usize)> {
    refusal_of_bytes(&wide_file_of(records))
}

fn refusal_of_bytes(bytes: &[u8]) -> Option<(u8, usize)> {
    let refusal = read_as::<Wide>(bytes).err();
    refusal.map(|Refusal { number, place }| (number, place))
}

fn refusal_of_fabric(fabric: &Fabric) -> Option<(u8, usize)> {
    refusal_of_bytes(&write(fabric))
}

#[test]
fn question_1_length() {
    for (length, question) in [
        (0, 1),
        (4, 1),
        (8, 2),
        (40_200, 2),
        (40_204, 2),
        (59_780, 2),
        (59_783, 1),
        (59_784, 2),
        (59_785, 1),
        (59_788, 1),
    ] {
        let mut bytes = wide_f();
        bytes.resize(length, 0);
        assert_eq!(refusal_of_bytes(&bytes), Some((question, 0)), "{length}");
    }
}

/// Of all versions the second alone, under OpenFlow 1.0 or 1.3.
#[test]
fn question_2_version() {
    for upper in 0..=0xffff {
        let refusal = (upper != 0x1002 && upper != 0x1802).then_some((2, 0));
        let bytes = to_le_bytes(&[upper << 16 | 2, END]);
        assert_eq!(refusal_of_bytes(&bytes), refusal, "start {upper:x}");
    }
    for count in [0, 1, 3, 0xffff] {
        let bytes = to_le_bytes(&[0x10020000 | count, END]);
        assert_eq!(refusal_of_bytes(&bytes), Some((2, 0)));
    }
}

/// A file longer than version 1's can be is 1 in a call of that, a shorter one 2.
#[test]
fn files_of_the_other_version() {
    let asked = wild_query(9, 99, 0);
    let wide_asked = Query::wild(9, 99, 0);
    for call in [calls::verdict, calls::list, calls::run] {
        assert_eq!(answer(call, &wide_f(), 0, &asked), Err((2, 0)));
    }
    for call in [calls::verdict, calls::list, calls::run] {
        assert_eq!(answer(call, &fabric_f(), 0, &wide_asked), Err((2, 0)));
    }
    let of_words = |words: usize| {
        let mut records = vec![0x30001002; words - 2];
        records.push(END);
        wide_file_of(&records)
    };
    for (words, question) in [(10_049, 2), (10_050, 2), (10_051, 1), (14_946, 1)] {
        let file = of_words(words);
        assert_eq!(read(&file), Err(Refusal::new(question, 0)), "{words} words");
        // In its own version the second of these links is refused.
        assert_eq!(refusal_of_bytes(&file), Some((4, 2)));
    }
    assert_eq!(refusal_of_bytes(&of_words(14_947)), Some((1, 0)));
}

#[test]
fn random_files_of_the_other_version() {
    cases(2_000_000, 300, |rng: &mut Rng| {
        let file = write(&any(rng));
        assert_eq!(refusal_of_bytes(&file), Some((2, 0)));
    });
    wide_cases(2_001_000, 300, |rng: &mut WideRng| {
        let file = write(&any(rng));
        let question = if file.len() > 40_200 { 1 } else { 2 };
        assert_eq!(read(&file), Err(Refusal::new(question, 0)));
    });
}

/// An edge has 17 words, an entry 34.
#[test]
fn question_3_record_inside() {
    for (first, length) in [(0x20000001, 17), (0x40000001, 34)] {
        let record = wide_record(first);
        assert_eq!(record.len(), length);
        for cut in 1..length {
            assert_eq!(refusal_of(&record[..cut]), Some((3, 1)), "{cut} words");
        }
        assert_eq!(refusal_of(&[&record[..], &[END]].concat()), None);
    }
}

/// The place is the number of a record's first word: 1, 18 and 35 for edges, 36 and
/// 70 for entries behind two edges and a link.
#[test]
fn places() {
    let made = |spoil: fn(&mut Fabric)| {
        let entries = [Entry::plain(1, 1, 2), Entry::plain(1, 1, 3)];
        let mut made = wide_fabric([1, 2], &[link(10, 11)], &entries);
        spoil(&mut made);
        refusal_of_fabric(&made)
    };
    assert_eq!(made(|_| {}), None);
    assert_eq!(made(|made| made.edges[0].port = 0), Some((4, 1)));
    assert_eq!(made(|made| made.edges[1].port = 1), Some((4, 18)));
    assert_eq!(made(|made| made.links[0].to = 1), Some((6, 35)));
    assert_eq!(made(|made| made.entries[0].in_port = 0), Some((4, 36)));
    assert_eq!(made(|made| made.entries[1].out_port = 1), Some((4, 70)));
}

/// Puts a set where question 5 looks, at a place.
type Put = (fn(&mut Fabric, Set), usize);

/// As an admitted set, a match and a rewrite.
const PROPER: [Put; 3] = [
    (|made, set| made.edges[1].admitted = set, 18),
    (|made, set| made.entries[0].matching = set, 35),
    (|made, set| made.entries[0].rewrite = Rewrite::to(set), 35),
];

/// Whether question 5 refuses this set wherever it stands, or nowhere.
fn is_improper(set: Set) -> bool {
    let refusals = PROPER.map(|(put, place)| {
        let mut made = wide_fabric([1, 1], &[], &[Entry::plain(1, 1, 0)]);
        put(&mut made, set);
        refusal_of_fabric(&made).map(|refusal| assert_eq!(refusal, (5, place)))
    });
    assert!(refusals.iter().all(|refusal| *refusal == refusals[0]));
    refusals[0].is_some()
}

#[test]
fn question_5_values() {
    let all = !Wide::ZERO_BITS;
    for bit in (0..256).map(Wide::bit) {
        let stray = Set {
            care: all & !bit,
            value: bit,
        };
        assert!(is_improper(stray), "{bit:x?}");
        let cared_for = Set {
            care: all,
            value: bit & all,
        };
        assert!(!is_improper(cared_for), "{bit:x?}");
    }
}

/// "8 bits that must be zero in care and mask", whatever their value is; all bits
/// before them may be cared for.
#[test]
fn question_5_zero_bits() {
    for bit in 0..32 {
        for value in [0, 1 << bit] {
            let set = Set::of_word(7, 1 << bit, value);
            assert_eq!(is_improper(set), bit < 8, "bit {bit} of word 7");
        }
        for word in 0..7 {
            let set = Set::of_word(word, 1 << bit, 1 << bit);
            assert!(!is_improper(set), "bit {bit} of word {word}");
        }
    }
}

/// Zero bits come after the ports, before a link's edges and before the limits.
#[test]
fn question_5_in_turn() {
    let mut made = wide_fabric([1, 1], &[], &[Entry::plain(1, 1, 1)]);
    made.entries[0].rewrite = Rewrite::to(Set::of_word(7, 1, 1));
    assert_eq!(refusal_of_fabric(&made), Some((4, 35)));
    let mut edges: Vec<_> = (1..=65).map(|port| Edge::open(1, port)).collect();
    edges[64].admitted = Set::of_word(7, 0x80, 0);
    let made = Fabric {
        edges,
        ..Fabric::default()
    };
    assert_eq!(refusal_of_fabric(&made), Some((5, 1 + 64 * 17)));
}

/// 400 entries in all and 64 at one in-port; 64 edges and 256 links as before.
#[test]
fn question_7_limits() {
    let edges: Vec<_> = (1..=65).map(|port| edge(1, port)).collect();
    let links: Vec<_> = (1..=257).map(|i| link(100 + i, 1000 + i)).collect();
    let entries: Vec<_> = (0..401).map(|i| entry(0, 1 + i / 64, 0)).collect();
    let of = |edges: &[_], links: &[_], entries: &[_]| {
        refusal_of_fabric(&widened(&fabric(edges, links, entries)))
    };
    let most = widened(&fabric(&edges[..64], &links[..256], &entries[..400]));
    assert_eq!(write(&most).len(), 59_784);
    assert_eq!(refusal_of_fabric(&most), None);
    assert_eq!(of(&edges, &[], &[]), Some((7, 1 + 64 * 17)));
    assert_eq!(of(&[], &links, &[]), Some((7, 257)));
    assert_eq!(of(&[], &[], &entries), Some((7, 1 + 400 * 34)));
    assert_eq!(of(&[], &[], &entries[..400]), None);
    let at_one_in_port = [&entries[..64], &entries[..1]].concat();
    assert_eq!(of(&[], &[], &at_one_in_port), Some((7, 1 + 64 * 34)));
    assert_eq!(of(&[], &[], &entries[..64]), None);
}

/// The asked care has none of the zero bits, in any call; a run's has all others.
#[test]
fn question_10_zero_bits() {
    let file = write(&wide_fabric([1, 2], &[], &[Entry::plain(1, 1, 2)]));
    let asked = Query::wild(2, 1, 9);
    let packet = Query::packet(1, 1, Wide::default());
    assert_eq!(packet.care[..7], [u32::MAX; 7]);
    assert_eq!(packet.care[7], 0xffffff00);
    let refused = |call: Call<[u32; 8]>, query: &Query| answer(call, &file, 200, query).err();
    for (word, bit) in (0..8).flat_map(|word| (0..32).map(move |bit| (word, 1 << bit))) {
        let is_zero_bit = word == 7 && bit < 0x100;
        let no = Some((10, 0));
        for value in [0, bit] {
            let mut asked = asked;
            (asked.care[word], asked.value[word]) = (bit, value);
            let expected = no.filter(|_| is_zero_bit);
            assert_eq!(refused(verdict, &asked), expected, "{word}, {bit:x}");
            assert_eq!(refused(list, &asked), expected, "{word}, {bit:x}");
            let mut packet = packet;
            packet.value[word] = value;
            let expected = no.filter(|_| is_zero_bit && value != 0);
            assert_eq!(refused(run, &packet), expected, "{word}, {bit:x}");
        }
        let mut outside = asked;
        outside.value[word] = bit;
        assert_eq!(refused(verdict, &outside), no);
        assert_eq!(refused(list, &outside), no);
        // A zero bit more, or another less.
        let mut packet = packet;
        packet.care[word] ^= bit;
        assert_eq!(refused(run, &packet), no, "{word}, {bit:x}");
    }
}

/// 9 before 10, 10 before 11, 12 after these.
#[test]
fn question_10_in_turn() {
    let spoiled = |query: Query| {
        let mut query = query;
        query.care[7] |= 1;
        query
    };
    let of = |call: Call<[u32; 8]>, query| answer(call, &wide_f(), 0, &spoiled(query));
    assert_eq!(of(verdict, Query::wild(3, 17, 0)), Err((8, 0)));
    assert_eq!(of(list, Query::wild(2, 17, 0)), Err((9, 0)));
    assert_eq!(of(verdict, Query::wild(2, 16, 0)), Err((10, 0)));
    assert_eq!(of(list, Query::wild(0, 16, 0)), Err((10, 0)));
    let packet = |port, limit| Query::packet(port, limit, Wide::default());
    assert_eq!(of(run, packet(3, 17)), Err((9, 0)));
    assert_eq!(of(run, packet(3, 16)), Err((10, 0)));
    let right = packet(3, 16);
    assert_eq!(answer(run, &wide_f(), 0, &right), Err((11, 0)));
}

/// In each way that either version's files can be, and the four of version 2's.
#[test]
fn each_damage_is_refused_at_its_place() {
    let all = Damage::ALL.into_iter().chain(Damage::OF_VERSION_2);
    for (number, how) in (0..).zip(all) {
        wide_cases(2_100_000 + 1000 * number, 60, |rng| {
            let file = write(&any(rng));
            let damaged = inflict(how, &file, rng);
            if let Some(expected) = damaged.refusal {
                let read = read_as::<Wide>(&damaged.bytes);
                assert_eq!(read, Err(expected), "{how:?}");
            }
        });
    }
}

/// Whatever the damage, a file is refused or reads as what it says, in the one
/// version or the other.
#[test]
fn damaged_files_are_refused_or_read_back() {
    wide_cases(2_200_000, 3000, |rng| {
        let mut bytes = write(&any(rng));
        for _ in 0..rng.between(1, 3) {
            bytes = damage(&bytes, rng);
        }
        match read_as::<Wide>(&bytes) {
            Ok(fabric) => assert_eq!(write(&fabric), bytes),
            Err(Refusal { number, place }) => {
                assert!((1..=7).contains(&number));
                assert_eq!(place == 0, number <= 2);
                assert!(place <= bytes.len() / 4);
            }
        }
    });
}

/// A version 1 file that is marked as version 2 is taken for one: the second edge's
/// first word is in the first one's value.
#[test]
fn a_file_marked_as_version_2() {
    let mut words = to_le_words(&fabric_f());
    words[0] = 0x10020038;
    let refusal = refusal_of_bytes(&to_le_bytes(&words));
    assert_eq!(refusal, Some((5, 1)));
    let asked = run_query(1, 1, [0; 4]);
    let refused = answer(calls::run, &to_le_bytes(&words), 96, &asked);
    assert_eq!(refused, Err((2, 0)));
}

/// The largest of one version is 1 or 2 in the other's calls.
#[test]
fn the_largest_files() {
    let wide = write(&largest(&mut WideRng::new(1)));
    assert_eq!(wide.len(), 59_784);
    assert_eq!(read(&wide), Err(Refusal::new(1, 0)));
    assert!(read_as::<Wide>(&wide).is_ok());
    let narrow = write(&largest(&mut Rng::new(1)));
    assert_eq!(refusal_of_bytes(&narrow), Some((2, 0)));
}
