//! Ethernet fields, document 02's 2.6, worked by hand.

mod common;

use common::{answer, asked, filled_as, lost_of, run_of};
use reference::examples::{
    denied_across_words, from_host, no_arp, one_host_admitted, one_pcp_taken, routed, to_host,
    wide_f, wide_reply,
};
use reference::file::{read_as, to_le_words, write};
use reference::wide::{list, run, verdict, Fabric, Query, Set};
use reference::{OpenFlow, Transfer, Wide};

fn filled(words: &[u32]) -> Vec<u32> {
    filled_as::<Wide>(words)
}

/// One find at port 1, by these entries.
fn find(entries: &[u32], care: [u32; 8], value: [u32; 8]) -> Vec<u32> {
    let mut words = vec![0x60000001 + 0x1000 * entries.len() as u32];
    words.extend(entries.iter().map(|entry| 0x70000000 + entry));
    words.extend(care);
    words.extend(value);
    words
}

const WILD: [u32; 8] = [0; 8];

/// E1 to E6 of document 01, with four words more in each header.
#[test]
fn f_in_version_2() {
    assert_eq!(wide_f().len(), 104 * 4);
    let fabric: Fabric = read_as(&wide_f()).unwrap();
    assert_eq!((fabric.edges.len(), fabric.entries.len()), (2, 2));
    assert_eq!(write(&fabric), wide_f());
    let to_2 = [0, 0xffffffff, 0, 0, 0, 0, 0, 0];
    let [mut first, mut second] = [to_2; 2];
    (first[2], second[2]) = (2, 3);
    let value = [0, 0x0a000002, 0, 0, 0, 0, 0, 0];
    let mut with_2 = value;
    with_2[2] = 2;
    let finds = [find(&[1], first, with_2), find(&[1], second, value)].concat();
    assert_eq!(asked(list, &fabric, 1, 2), Ok(finds));
    let reached = filled(&[1, 2, 1, 1, 0, 0x0a000002, 2, 0, 0, 0, 0, 0, 1]);
    assert_eq!(asked(verdict, &fabric, 1, 2), Ok(reached));
    assert_eq!(asked(verdict, &fabric, 1, 1), Err((13, 0)));
    let of_1 = Query::wild(1, 1, 0);
    assert_eq!(answer(verdict, &wide_f(), 112, &of_1), Ok(vec![0; 28]));
    assert_eq!(asked(verdict, &fabric, 17, 2), Err((9, 0)));
    assert!(asked(verdict, &fabric, 16, 2).is_ok());
}

/// Bits 31 to 16 of word 7, from first to last: the earlier ones as in 0x0806, the
/// next opposite.
#[test]
fn carved_by_a_dl_type() {
    let made = no_arp();
    let parts = (0..16).rev().map(|place| {
        let care = 0xffff << place & 0xffff;
        let value = (0x0806 ^ 1 << place) & care;
        let of = |bits: u32| [0, 0, 0, 0, 0, 0, 0, bits << 16];
        find(&[1], of(care), of(value))
    });
    let finds: Vec<_> = parts.collect();
    assert_eq!(asked(list, &made, 1, 2), Ok(finds.concat()));
    // The first part's lowest header: its first bit isn't ARP's.
    let reached = filled(&[1, 2, 1, 1, 0, 0, 0, 0, 0, 0, 0, 0x80000000, 1]);
    assert_eq!(asked(verdict, &made, 1, 2), Ok(reached));
    let header = |dl_type: u32| [1, 2, 3, 4, 5, 6, 7, dl_type << 16 | 0x0100];
    let dropped = filled(&[1, 0, 1, 1, 1, 2, 3, 4, 5, 6, 7, 0x08060100, 0]);
    assert_eq!(run_of(&made, 1, header(0x0806)), dropped);
    let left = filled(&[0, 0, 2, 1, 1, 2, 3, 4, 5, 6, 7, 0x08000100, 1]);
    assert_eq!(run_of(&made, 1, header(0x0800)), left);
}

/// dl_src is word 4 and the high half of word 5, dl_dst the low half and word 6.
#[test]
fn addresses_across_words() {
    let care = [0, 0, 0, 0, 0xffffffff, 0xffff0000, 0, 0];
    let value = [0, 0, 0, 0, 0x02000000, 0x00010000, 0, 0];
    assert_eq!(from_host(1), Set::of_words(care, value));
    let care = [0, 0, 0, 0, 0, 0x0000ffff, 0xffffffff, 0];
    let value = [0, 0, 0, 0, 0, 0x00000200, 0x00000002, 0];
    assert_eq!(to_host(2), Set::of_words(care, value));
}

/// Entry 1, and behind the link entry 0, which writes what is wanted; or wants of
/// dl_src or dl_dst that it doesn't meet.
#[test]
fn addresses_are_rewritten() {
    let made = routed();
    let listed = |exit: Set, budget| {
        let query = Query::wild(2, 2, budget).about(exit);
        answer(list, &write(&made), 4000, &query)
    };
    let all = find(&[0, 1], WILD, WILD);
    for exit in [Set::ALL_WILD, from_host(1), to_host(2)] {
        assert_eq!(listed(exit, 2), Ok(all.clone()));
        assert_eq!(listed(exit, 1), Err((13, 0)));
    }
    assert_eq!(listed(from_host(3), 2), Ok(vec![]));
    assert_eq!(listed(from_host(3), 1), Err((13, 0)));
    assert_eq!(listed(to_host(3), 1), Ok(vec![]));
    let from_1_to_2 = [0x02000000, 0x00010200, 0x00000002];
    let [w4, w5, w6] = from_1_to_2;
    let left = filled(&[0, 0, 2, 2, 1, 2, 3, 4, w4, w5, w6, 0x08000100, 0, 1]);
    let header = [1, 2, 3, 4, 5, 6, 7, 0x08000100];
    assert_eq!(run_of(&made, 2, header), left);
    let travelling = filled(&[3, 0, 11, 1, 1, 2, 3, 4, w4, w5, w6, 0x08000100, 0]);
    assert_eq!(run_of(&made, 1, header), travelling);
}

/// The first bit of dl_src that the asked set leaves open is turned: of host 5 all
/// are 0 but the seventh, the last but two and the last.
#[test]
fn foreign_by_dl_src() {
    let made = one_host_admitted();
    let judged = |asked: Set| {
        let query = Query::wild(2, 1, 1).about(asked);
        answer(verdict, &write(&made), 112, &query).unwrap()
    };
    let reached = |w4: u32, w5: u32| filled(&[1, 1, 1, 1, 0, 0, 0, 0, w4, w5, 0, 0, 0]);
    assert_eq!(judged(Set::ALL_WILD), reached(0x80000000, 0));
    let first_0 = Set::of_word(4, 0x80000000, 0);
    assert_eq!(judged(first_0), reached(0x40000000, 0));
    let care = [0, 0, 0, 0, 0xffffffff, 0xfffe0000, 0, 0];
    let all_but_the_last = Set::of_words(care, [0, 0, 0, 0, 0x02000000, 0x00040000, 0, 0]);
    assert_eq!(judged(all_but_the_last), reached(0x02000000, 0x00040000));
    assert_eq!(judged(from_host(5)), filled(&[0, 1]));
}

/// At 1 one trial leaves eight parts, from bit 15 of word 7 to bit 8; at 2 all is
/// lost without one.
#[test]
fn lost_by_dl_vlan_pcp() {
    let mut made = one_pcp_taken();
    let mut finds = Vec::new();
    for place in (0..8).rev() {
        let care = 0xff << place & 0xff;
        let value = (5 ^ 1 << place) & care;
        let of = |bits: u32| [0, 0, 0, 0, 0, 0, 0, bits << 8];
        finds.extend(find(&[], of(care), of(value)));
    }
    finds.extend([&[0x60000002], &[0; 16][..]].concat());
    assert_eq!(lost_of(&made, 1, 1, Set::ALL_WILD), Ok(finds));
    assert_eq!(lost_of(&made, 1, 0, Set::ALL_WILD), Err((13, 0)));
    let lost = filled(&[2, 0, 1, 0, 0, 0, 0, 0, 0, 0, 0, 0x0400]);
    assert_eq!(run_of(&made, 1, [0, 0, 0, 0, 0, 0, 0, 0x0400]), lost);
    made.openflow = OpenFlow::V1_3;
    assert_eq!(lost_of(&made, 1, 1, Set::ALL_WILD), Err((8, 0)));
    let dropped = filled(&[1, 0, 1, 0, 0, 0, 0, 0, 0, 0, 0, 0x0400]);
    assert_eq!(run_of(&made, 1, [0, 0, 0, 0, 0, 0, 0, 0x0400]), dropped);
}

/// Words 0 and 1 alone are moved; dl_src and dl_dst stay where they are.
#[test]
fn replies_leave_ethernet_alone() {
    let header = [1, 2, 3, 4, 5, 6, 7, 0x08000100];
    for (transfer, [src, dst]) in [(Transfer::Swap, [2, 1]), (Transfer::Copy, [1, 1])] {
        let left = filled(&[0, 0, 2, 1, src, dst, 3, 4, 5, 6, 7, 0x08000100, 0]);
        assert_eq!(run_of(&wide_reply(transfer), 1, header), left);
    }
    let hosts = from_host(1).intersect(&to_host(2)).unwrap();
    let exit = hosts.intersect(&Set::of_word(1, 0xff, 9)).unwrap();
    let query = Query::wild(2, 1, 1).about(exit);
    let care = [0xff, 0, 0, 0, 0xffffffff, 0xffffffff, 0xffffffff, 0];
    let value = [9, 0, 0, 0, 0x02000000, 0x00010200, 0x00000002, 0];
    for transfer in [Transfer::Swap, Transfer::Copy] {
        let listed = answer(list, &write(&wide_reply(transfer)), 72, &query);
        assert_eq!(listed, Ok(find(&[0], care, value)));
    }
}

/// "Bits run from word 0 bit 31", and on through word 7: the earlier ones set, the
/// next not.
#[test]
fn carved_from_the_first_word_to_the_last() {
    let denied = [
        (0, 0x80000000),
        (3, 1),
        (4, 0x80000000),
        (5, 0x00010000),
        (5, 0x00008000),
        (7, 0x0100),
    ];
    let (mut care, mut value) = (WILD, WILD);
    let mut finds = Vec::new();
    for (word, bit) in denied {
        care[word] |= bit;
        finds.extend(find(&[1], care, value));
        value[word] |= bit;
    }
    assert_eq!(asked(list, &denied_across_words(), 1, 2), Ok(finds));
}

/// A file has its version and its OpenFlow each in its own bits.
#[test]
fn the_start_word() {
    let mut made = no_arp();
    assert_eq!(to_le_words(&write(&made))[0], 0x10020068);
    made.openflow = OpenFlow::V1_3;
    assert_eq!(to_le_words(&write(&made))[0], 0x18020068);
    assert_eq!(read_as(&write(&made)), Ok(made));
}

/// 28 words and 112 bytes; a find of a list has 16 words for its set.
#[test]
fn room_for_the_answers() {
    let made = routed();
    let file = write(&made);
    let (asked, packet) = (Query::wild(2, 2, 2), Query::packet(1, 2, Wide::default()));
    for lent in [0, 96, 111] {
        assert_eq!(answer(verdict, &file, lent, &asked), Err((12, 0)));
        assert_eq!(answer(run, &file, lent, &packet), Err((12, 0)));
    }
    assert_eq!(answer(verdict, &file, 112, &asked).unwrap().len(), 28);
    assert_eq!(answer(run, &file, 113, &packet).unwrap().len(), 28);
    // A find of two hops: 1 + 2 + 16 words.
    assert_eq!(answer(list, &file, 75, &asked), Err((12, 0)));
    assert_eq!(answer(list, &file, 76, &asked).unwrap().len(), 19);
}
