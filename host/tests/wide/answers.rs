//! The examples by hand, as the product answers them.

use reference::examples::{no_arp, one_host_admitted, one_pcp_taken, routed, wide_f, wide_reply};
use reference::file::write;
use reference::wide::Query;
use reference::{Bits, Transfer, Wide};

use crate::calls::{product, LIST, ROOM, RUN, VERDICT};

fn filled(words: &[u32]) -> Vec<u32> {
    let mut words = words.to_vec();
    words.resize(28, 0);
    words
}

/// E2 to E5 of document 01, in version 2.
#[test]
fn fabric_f() {
    let reached = filled(&[1, 2, 1, 1, 0, 0x0a000002, 2, 0, 0, 0, 0, 0, 1]);
    let asked = Query::wild(2, 1, 2);
    assert_eq!(product(VERDICT, &wide_f(), ROOM, &asked), Ok(reached));
    let first = [0x60001001, 0x70000001, 0, 0xffffffff, 2, 0, 0, 0, 0, 0];
    let second = [0x60001001, 0x70000001, 0, 0xffffffff, 3, 0, 0, 0, 0, 0];
    let value = |tp: u32| [0, 0x0a000002, tp, 0, 0, 0, 0, 0];
    let finds = [&first[..], &value(2), &second, &value(0)].concat();
    assert_eq!(product(LIST, &wide_f(), 144, &asked), Ok(finds));
    let short = Query::wild(2, 1, 1);
    assert_eq!(product(VERDICT, &wide_f(), ROOM, &short), Err((13, 0)));
    let of_1 = Query::wild(1, 1, 0);
    assert_eq!(product(VERDICT, &wide_f(), ROOM, &of_1), Ok(vec![0; 28]));
}

/// The first of dl_type's bits that isn't ARP's; the first of dl_src's that isn't the
/// admitted host's.
#[test]
fn reached_by_an_ethernet_bit() {
    let asked = Query::wild(2, 1, 2);
    let by_dl_type = filled(&[1, 2, 1, 1, 0, 0, 0, 0, 0, 0, 0, 0x80000000, 1]);
    let judged = product(VERDICT, &write(&no_arp()), ROOM, &asked);
    assert_eq!(judged, Ok(by_dl_type));
    let by_dl_src = filled(&[1, 1, 1, 1, 0, 0, 0, 0, 0x80000000, 0, 0, 0, 0]);
    let judged = product(VERDICT, &write(&one_host_admitted()), ROOM, &asked);
    assert_eq!(judged, Ok(by_dl_src));
}

#[test]
fn runs() {
    let header = [1, 2, 3, 4, 5, 6, 7, 0x08000400];
    let of = |file: &[u8]| {
        let asked = Query::packet(1, 16, Wide::from_words(header));
        product(RUN, file, ROOM, &asked).expect("a run")
    };
    let w = [0x02000000, 0x00010200, 2, 0x08000400];
    let left = filled(&[0, 0, 2, 2, 1, 2, 3, 4, w[0], w[1], w[2], w[3], 0, 1]);
    assert_eq!(of(&write(&routed())), left);
    let swapped = filled(&[0, 0, 2, 1, 2, 1, 3, 4, 5, 6, 7, w[3], 0]);
    assert_eq!(of(&write(&wide_reply(Transfer::Swap))), swapped);
    let lost = filled(&[2, 0, 1, 0, 1, 2, 3, 4, 5, 6, 7, w[3]]);
    assert_eq!(of(&write(&one_pcp_taken())), lost);
}
