//! Every question's refusals, with number and place.

mod common;

use common::{answer, Call};
use reference::examples::{
    edge, entry, fabric, fabric_f, file_of, link, record, run_query, wild_query,
};
use reference::file::{read, to_le_bytes, to_le_words, write};
use reference::random::{any, cases, damage, inflict, Damage};
use reference::{list, run, verdict, Fabric, Query, Refusal, Set};

/// The refusal of a file of these words after a right start.
fn refusal_of(records: &[u32]) -> Option<(u8, usize)> {
    refusal_of_bytes(&file_of(records))
}

fn refusal_of_bytes(bytes: &[u8]) -> Option<(u8, usize)> {
    let refusal = read(bytes).err();
    refusal.map(|Refusal { number, place }| (number, place))
}

fn refusal_of_fabric(fabric: &Fabric) -> Option<(u8, usize)> {
    refusal_of_bytes(&write(fabric))
}

const END: u32 = 0x50000000;

#[test]
fn question_1_length() {
    let accepted = fabric_f();
    for length in (0..8).chain([9, 10, 11, 223, 225, 40_201, 40_203, 40_204]) {
        let mut bytes = accepted.clone();
        bytes.resize(length, 0);
        assert_eq!(refusal_of_bytes(&bytes), Some((1, 0)), "length {length}");
    }
    for length in [8, 12, 40_196, 40_200] {
        let mut bytes = accepted.clone();
        bytes.resize(length, 0);
        assert_eq!(refusal_of_bytes(&bytes), Some((2, 0)), "length {length}");
    }
}

#[test]
fn question_2_start() {
    let of = |start| refusal_of_bytes(&to_le_bytes(&[start, END]));
    // Bit 27 may be either: it chooses between OpenFlow 1.0 and 1.3.
    assert_eq!(of(0x10010002), None);
    assert_eq!(of(0x18010002), None);
    for start in [0x10010001, 0x10010003, 0x10000002, 0x10020002, 0x14010002] {
        assert_eq!(of(start), Some((2, 0)), "start {start:x}");
        let under_1_3 = start | 1 << 27;
        assert_eq!(of(under_1_3), Some((2, 0)), "start {under_1_3:x}");
    }
    for kind in [0, 2, 3, 4, 5, 6, 9, 15] {
        assert_eq!(of(kind << 28 | 0x10002), Some((2, 0)), "kind {kind}");
    }
    // The version is the eleven bits below it.
    for upper in 0..=0xffff {
        let refusal = (upper != 0x1001 && upper != 0x1801).then_some((2, 0));
        assert_eq!(of(upper << 16 | 2), refusal, "start {upper:x}");
    }
}

#[test]
fn question_3_a_word_here() {
    assert_eq!(refusal_of(&[0x30001002]), Some((3, 2)));
    assert_eq!(refusal_of(&record(0x20000001)), Some((3, 10)));
}

#[test]
fn question_3_kind() {
    for kind in [0, 1, 6, 7, 8, 15] {
        let word = kind << 28 | 0x1002;
        assert_eq!(refusal_of(&[word, END]), Some((3, 1)), "kind {kind}");
        let after_link = [0x30001002, word, END];
        assert_eq!(refusal_of(&after_link), Some((3, 2)), "kind {kind}");
    }
}

#[test]
fn question_3_kinds_fall() {
    let (edge, entry) = (record(0x20000005), record(0x40000001));
    let link = vec![0x30001002];
    let of = |records: [&Vec<u32>; 2]| {
        let mut words = records.map(Vec::clone).concat();
        words.push(END);
        refusal_of(&words)
    };
    assert_eq!(of([&link, &edge]), Some((3, 2)));
    assert_eq!(of([&entry, &edge]), Some((3, 19)));
    assert_eq!(of([&entry, &link]), Some((3, 19)));
    assert_eq!(of([&edge, &link]), None);
    assert_eq!(of([&edge, &entry]), None);
    assert_eq!(of([&link, &entry]), None);
}

#[test]
fn question_3_record_inside() {
    for length in 1..9 {
        assert_eq!(refusal_of(&record(0x20000001)[..length]), Some((3, 1)));
    }
    for length in 1..18 {
        assert_eq!(refusal_of(&record(0x40000001)[..length]), Some((3, 1)));
    }
}

#[test]
fn question_3_zero_bits() {
    for bit in 24..28 {
        let link = 0x30001002 | 1 << bit;
        assert_eq!(refusal_of(&[link, END]), Some((3, 1)));
    }
    for bit in 12..28 {
        assert_eq!(refusal_of(&entry_with(1 << bit)), Some((3, 1)));
    }
    for bit in 0..28 {
        assert_eq!(refusal_of(&[0x30001002, END | 1 << bit]), Some((3, 2)));
    }
}

/// An entry with this second word, and the end.
fn entry_with(second: u32) -> Vec<u32> {
    let mut words = record(0x40000001);
    words[1] = second;
    words.push(END);
    words
}

/// "Values above 2 fail question 3", and the bits below stay zero bits.
#[test]
fn question_3_transfer() {
    for transfer in 0..16 {
        let refusal = (transfer > 2).then_some((3, 1));
        assert_eq!(refusal_of(&entry_with(transfer << 28)), refusal);
        assert_eq!(refusal_of(&entry_with(transfer << 28 | 0xfff)), refusal);
        for bit in 12..28 {
            let words = entry_with(transfer << 28 | 1 << bit);
            assert_eq!(refusal_of(&words), Some((3, 1)));
        }
    }
    // The place is the record's first word, also of a later entry.
    let before = &entry_with(0x2000_0000)[..18];
    let second = [before, &entry_with(0x3000_0000)[..]].concat();
    assert_eq!(refusal_of(&second), Some((3, 19)));
}

#[test]
fn question_3_end() {
    assert_eq!(refusal_of(&[END, END]), Some((3, 1)));
    assert_eq!(refusal_of(&[END, 0x30001002]), Some((3, 1)));
    assert_eq!(refusal_of(&[0x30001002, END, 0x30001003]), Some((3, 2)));
}

#[test]
fn question_4_ports() {
    let edges = |ports: &[u16]| {
        let edges: Vec<_> = ports.iter().map(|&port| edge(1, port)).collect();
        refusal_of_fabric(&fabric(&edges, &[], &[]))
    };
    assert_eq!(edges(&[1, 2, 4095]), None);
    assert_eq!(edges(&[0]), Some((4, 1)));
    assert_eq!(edges(&[1, 1]), Some((4, 10)));
    assert_eq!(edges(&[1, 3, 2]), Some((4, 19)));
    let links = |ports: &[(u16, u16)]| {
        let links: Vec<_> = ports.iter().map(|&(from, to)| link(from, to)).collect();
        refusal_of_fabric(&fabric(&[edge(1, 9)], &links, &[]))
    };
    assert_eq!(links(&[(1, 2), (2, 1), (4095, 4094)]), None);
    assert_eq!(links(&[(0, 1)]), Some((4, 10)));
    assert_eq!(links(&[(1, 0)]), Some((4, 10)));
    assert_eq!(links(&[(1, 1)]), Some((4, 10)));
    assert_eq!(links(&[(1, 2), (1, 3)]), Some((4, 11)));
    assert_eq!(links(&[(1, 2), (4, 3), (3, 4)]), Some((4, 12)));
    let entries = |ports: &[(u16, u16)]| {
        let entries: Vec<_> = ports.iter().map(|&(i, o)| entry(0, i, o)).collect();
        refusal_of_fabric(&fabric(&[edge(1, 9)], &[link(1, 2)], &entries))
    };
    assert_eq!(entries(&[(1, 0), (9, 1), (4095, 1), (1, 4095)]), None);
    assert_eq!(entries(&[(0, 1)]), Some((4, 11)));
    assert_eq!(entries(&[(0, 0)]), Some((4, 11)));
    assert_eq!(entries(&[(1, 0), (7, 7)]), Some((4, 29)));
}

#[test]
fn question_5_values() {
    for bit in 0..128 {
        let stray = Set {
            care: !(1 << bit),
            value: 1 << bit,
        };
        let mut made = fabric(&[edge(1, 1), edge(1, 2)], &[], &[entry(1, 1, 0)]);
        made.edges[1].admitted = stray;
        assert_eq!(refusal_of_fabric(&made), Some((5, 10)));
        made.edges[1].admitted = Set::ALL_WILD;
        made.entries[0].matching = stray;
        assert_eq!(refusal_of_fabric(&made), Some((5, 19)));
        made.entries[0].matching = Set::ALL_WILD;
        made.entries[0].rewrite.mask = stray.care;
        made.entries[0].rewrite.value = stray.value;
        assert_eq!(refusal_of_fabric(&made), Some((5, 19)));
        made.entries[0].rewrite.mask = !0;
        assert_eq!(refusal_of_fabric(&made), None);
    }
}

#[test]
fn question_6_links() {
    let links = |links: &[_]| refusal_of_fabric(&fabric(&[edge(1, 5)], links, &[]));
    assert_eq!(links(&[link(5, 6)]), Some((6, 10)));
    assert_eq!(links(&[link(1, 2), link(6, 5)]), Some((6, 11)));
    assert_eq!(links(&[link(1, 2), link(2, 3), link(4, 2)]), Some((6, 12)));
    assert_eq!(links(&[link(1, 2), link(2, 3), link(4, 1)]), None);
}

#[test]
fn question_7_limits() {
    let edges: Vec<_> = (1..=65).map(|port| edge(1, port)).collect();
    let links: Vec<_> = (1..=257).map(|i| link(100 + i, 1000 + i)).collect();
    let entries: Vec<_> = (0..513).map(|i| entry(0, 1 + i / 64, 0)).collect();
    let most = fabric(&edges[..64], &links[..256], &entries[..512]);
    assert_eq!(write(&most).len(), 40_200);
    assert_eq!(refusal_of_fabric(&most), None);

    assert_eq!(refusal_of_fabric(&fabric(&edges, &[], &[])), Some((7, 577)));
    assert_eq!(refusal_of_fabric(&fabric(&[], &links, &[])), Some((7, 257)));
    let one_more = fabric(&[], &[], &entries);
    assert_eq!(refusal_of_fabric(&one_more), Some((7, 1 + 512 * 18)));
    let at_one_in_port = [&entries[..64], &entries[..1]].concat();
    let one_more = fabric(&[], &[], &at_one_in_port);
    assert_eq!(refusal_of_fabric(&one_more), Some((7, 1 + 64 * 18)));
    let parted = [&entries[..63], &entries[64..70], &entries[..1]].concat();
    assert_eq!(refusal_of_fabric(&fabric(&[], &[], &parted)), None);
    let parted = [&parted[..], &entries[..1]].concat();
    let one_more = fabric(&[], &[], &parted);
    assert_eq!(refusal_of_fabric(&one_more), Some((7, 1 + 70 * 18)));
}

/// One record's questions come in turn, and all before the next record's.
#[test]
fn questions_3_to_7_in_turn() {
    let mut everything = entry(0, 0, 0);
    everything.matching.value = 1;
    let mut words = to_le_words(&write(&fabric(&[], &[], &[everything])));
    let of = |words: &[u32]| refusal_of_bytes(&to_le_bytes(words));
    for second in [0x1000, 0x3000_0000] {
        words[2] = second;
        assert_eq!(of(&words), Some((3, 1)));
    }
    words[2] = 0;
    assert_eq!(of(&words), Some((4, 1)));
    words[1] |= 1;
    assert_eq!(of(&words), Some((5, 1)));

    // A link to itself at an edge port; then one at an edge port, too many.
    let at_edge = fabric(&[edge(1, 5)], &[link(5, 5)], &[]);
    assert_eq!(refusal_of_fabric(&at_edge), Some((4, 10)));
    let mut links: Vec<_> = (1..=257).map(|i| link(100 + i, 1000 + i)).collect();
    links[256].to = 5;
    let too_many = fabric(&[edge(1, 5)], &links, &[]);
    assert_eq!(refusal_of_fabric(&too_many), Some((6, 266)));

    // The 65th edge before a word of an unknown kind; value before limit.
    let mut edges: Vec<_> = (1..=65).map(|port| edge(1, port)).collect();
    let mut words = to_le_words(&write(&fabric(&edges, &[], &[])));
    *words.last_mut().unwrap() = 0xf0000000;
    assert_eq!(of(&words), Some((7, 577)));
    edges[64].admitted.value = 1;
    assert_eq!(refusal_of_fabric(&fabric(&edges, &[], &[])), Some((5, 577)));
}

#[test]
fn each_damage_is_refused_at_its_place() {
    for (number, how) in (0..).zip(Damage::ALL) {
        cases(20_000 + 1000 * number, 60, |rng| {
            let file = write(&any(rng));
            let damaged = inflict(how, &file, rng);
            if let Some(expected) = damaged.refusal {
                assert_eq!(read(&damaged.bytes), Err(expected), "{how:?}");
            }
        });
    }
}

/// Whatever the damage, a file is refused or reads as what it says.
#[test]
fn damaged_files_are_refused_or_read_back() {
    cases(100_000, 4000, |rng| {
        let mut bytes = write(&any(rng));
        for _ in 0..rng.between(1, 3) {
            bytes = damage(&bytes, rng);
        }
        match read(&bytes) {
            Ok(fabric) => assert_eq!(write(&fabric), bytes),
            Err(Refusal { number, place }) => {
                assert!((1..=7).contains(&number));
                assert_eq!(place == 0, number <= 2);
                assert!(place <= bytes.len() / 4);
            }
        }
    });
}

#[test]
fn a_bad_file_is_refused_by_every_call_before_all() {
    let mut file = fabric_f();
    file[4] = 0;
    let bad = wild_query(9, 99, 0);
    for call in [verdict, list, run] {
        assert_eq!(answer(call, &file, 0, &bad), Err((4, 1)));
        assert_eq!(answer(call, &[], 100, &bad), Err((1, 0)));
    }
}

/// A query of F that gets a no to the questions named.
fn query_refused_by(questions: &[u8], run: bool) -> (Query, usize) {
    let no = |question: u8| questions.contains(&question);
    let mut query = match run {
        true => run_query(1, 16, [0; 4]),
        false => wild_query(2, 16, 2),
    };
    if no(8) || no(11) {
        query.port = 3;
    }
    if no(9) {
        query.limit = 17;
    }
    if no(10) {
        query.care[3] = 0xfffffffe;
        query.value[3] = 1;
    }
    if no(13) {
        query.budget = 1;
    }
    let lent = if no(12) { 79 } else { 96 };
    (query, lent)
}

/// Of any questions that get a no, the one asked first answers.
fn first_no_answers(call: Call, order: &[u8]) {
    for chosen in 1..1 << order.len() {
        let noes: Vec<u8> = (0..order.len())
            .filter(|i| chosen >> i & 1 == 1)
            .map(|i| order[i])
            .collect();
        let (query, lent) = query_refused_by(&noes, order.contains(&11));
        let got = answer(call, &fabric_f(), lent, &query);
        assert_eq!(got, Err((noes[0], 0)), "noes {noes:?}");
    }
}

#[test]
fn questions_8_to_13_in_turn() {
    first_no_answers(verdict, &[8, 9, 10, 12, 13]);
    first_no_answers(list, &[8, 9, 10, 13, 12]);
    first_no_answers(run, &[9, 10, 11, 12]);
}

#[test]
fn questions_8_and_11_edge_ports() {
    let file = write(&fabric(&[edge(1, 5)], &[link(1, 2)], &[entry(0, 5, 1)]));
    let of_the_lost = wild_query(0, 1, 9);
    assert_eq!(answer(verdict, &file, 96, &of_the_lost), Err((8, 0)));
    assert!(answer(list, &file, 96, &of_the_lost).is_ok());
    let from_0 = run_query(0, 1, [0; 4]);
    assert_eq!(answer(run, &file, 96, &from_0), Err((11, 0)));
    for port in [1, 2, 4, 6, 4096, 5 + 4096, 65_536, 5 + 65_536, u32::MAX] {
        for call in [verdict, list] {
            let got = answer(call, &file, 96, &wild_query(port, 1, 9));
            assert_eq!(got, Err((8, 0)));
        }
        let got = answer(run, &file, 96, &run_query(port, 1, [0; 4]));
        assert_eq!(got, Err((11, 0)));
    }
}

#[test]
fn question_9_hop_limit() {
    for limit in [0, 17, 256 + 1, 65_536 + 1, u32::MAX] {
        for call in [verdict, list] {
            let got = answer(call, &fabric_f(), 96, &wild_query(2, limit, 2));
            assert_eq!(got, Err((9, 0)));
        }
        let got = answer(run, &fabric_f(), 96, &run_query(1, limit, [0; 4]));
        assert_eq!(got, Err((9, 0)));
    }
}

#[test]
fn question_10_asked_value() {
    for bit in 0..128 {
        let (word, bit) = (bit / 32, 1 << (bit % 32));
        let mut asked = wild_query(2, 1, 2);
        asked.care[word] = !bit;
        asked.value[word] = bit;
        for call in [verdict, list] {
            assert_eq!(answer(call, &fabric_f(), 96, &asked), Err((10, 0)));
        }
        let mut packet = run_query(1, 1, [0; 4]);
        packet.care[word] = !bit;
        assert_eq!(answer(run, &fabric_f(), 96, &packet), Err((10, 0)));
    }
}

#[test]
fn question_12_room() {
    let (asked, packet) = (wild_query(2, 1, 2), run_query(1, 1, [0; 4]));
    for lent in [0, 1, 95] {
        assert_eq!(answer(verdict, &fabric_f(), lent, &asked), Err((12, 0)));
        assert_eq!(answer(run, &fabric_f(), lent, &packet), Err((12, 0)));
    }
    for lent in [96, 97, 200] {
        assert!(answer(verdict, &fabric_f(), lent, &asked).is_ok());
        assert!(answer(run, &fabric_f(), lent, &packet).is_ok());
    }
    for lent in [0, 40, 76, 79] {
        assert_eq!(answer(list, &fabric_f(), lent, &asked), Err((12, 0)));
    }
    for lent in [80, 81, 200] {
        assert_eq!(answer(list, &fabric_f(), lent, &asked).unwrap().len(), 20);
    }
    // A list without a find needs no room.
    let none = wild_query(1, 1, 0);
    assert_eq!(answer(list, &fabric_f(), 0, &none), Ok(vec![]));
}
