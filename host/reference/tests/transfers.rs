//! Reply entries, document 02's 2.5, worked by hand.

mod common;

use common::{answer, asked, filled, run_of};
use reference::examples::{
    equals_after_a_copy, fabric_f, nw_dst, nw_src, one_reply, replies_behind_a_link,
    swapped_and_dropped, wild_query,
};
use reference::file::{read, to_le_bytes, to_le_words, write};
use reference::query::{input, print, LIST, VERDICT};
use reference::set::{from_words, to_words};
use reference::ways::Packet;
use reference::{list, verdict, Fabric, Refusal, Rewrite, Set, Transfer};

const COPY: Transfer = Transfer::Copy;
const SWAP: Transfer = Transfer::Swap;
const ALL: u32 = u32::MAX;

/// The headers with both these addresses.
fn both(src: Set, dst: Set) -> Set {
    src.intersect(&dst).unwrap()
}

/// The list of what one entry brings to port 2 with a header in this set.
fn back(fabric: &Fabric, exit: Set) -> Vec<u32> {
    let query = wild_query(2, 1, 1).about(exit);
    answer(list, &write(fabric), 40, &query).unwrap()
}

/// One find at port 1, by entry 0.
fn find(care: [u32; 4], value: [u32; 4]) -> Vec<u32> {
    [&[0x60001001, 0x70000000], &care[..], &value].concat()
}

/// What leaves with nw_dst x came with nw_src x, whatever its nw_dst was.
#[test]
fn undoing_a_copy() {
    let copy = one_reply(COPY, Rewrite::NONE);
    let to_x = find([ALL, 0, 0, 0], [0x0a000001, 0, 0, 0]);
    assert_eq!(back(&copy, nw_dst(ALL, 0x0a000001)), to_x);
    assert_eq!(back(&copy, nw_src(ALL, 0x0a000001)), to_x);
    assert_eq!(back(&copy, Set::ALL_WILD), find([0; 4], [0; 4]));
    // What is wanted of the other words stays there.
    let ports = Set::of_words([0, 0xff, 0xffff, 1], [0, 7, 80, 1]);
    let expected = find([0xff, 0, 0xffff, 1], [7, 0, 80, 1]);
    assert_eq!(back(&copy, ports), expected);
}

/// 10.0.0.0/8 and 10.1.0.0/16 are wanted of the same address; or 10.0.0.0/8 and
/// 11.0.0.0/8, which differ in bit 24.
#[test]
fn wants_that_agree_and_that_do_not() {
    let copy = one_reply(COPY, Rewrite::NONE);
    let src = nw_src(0xff000000, 0x0a000000);
    let agree = both(src, nw_dst(0xffff0000, 0x0a010000));
    let joined = find([0xffff0000, 0, 0, 0], [0x0a010000, 0, 0, 0]);
    assert_eq!(back(&copy, agree), joined);
    let apart = both(src, nw_dst(0xff000000, 0x0b000000));
    assert_eq!(back(&copy, apart), []);
    // Of different bits nothing can disagree.
    let others = both(nw_src(0xf0, 0xf0), nw_dst(0x0f, 0x05));
    assert_eq!(back(&copy, others), find([0xff, 0, 0, 0], [0xf5, 0, 0, 0]));
}

#[test]
fn undoing_a_swap() {
    let swap = one_reply(SWAP, Rewrite::NONE);
    let apart = both(nw_src(0xff000000, 0x0a000000), nw_dst(0xff, 9));
    let swapped = find([0xff, 0xff000000, 0, 0], [9, 0x0a000000, 0, 0]);
    assert_eq!(back(&swap, apart), swapped);
    let ports = Set::of_words([0, 0, 0xffff, 1], [0, 0, 80, 1]);
    let unmoved = find([0, 0, 0xffff, 1], [0, 0, 80, 1]);
    assert_eq!(back(&swap, ports), unmoved);
}

/// The gateway answers in its own name: swapped, then nw_src 10.0.0.254. What
/// leaves to 10.0.0.5 came from there.
#[test]
fn a_swapped_field_is_rewritten() {
    let gateway = 0x0a0000fe;
    let reply = one_reply(SWAP, Rewrite::to(nw_src(ALL, gateway)));
    let to_5 = nw_dst(ALL, 0x0a000005);
    let from_5 = find([ALL, 0, 0, 0], [0x0a000005, 0, 0, 0]);
    assert_eq!(back(&reply, to_5), from_5);
    assert_eq!(back(&reply, both(nw_src(ALL, gateway), to_5)), from_5);
    assert_eq!(back(&reply, nw_src(ALL, 0x0a0000fd)), []);
    let left = filled(&[0, 0, 2, 1, gateway, 5, 6, 7]);
    assert_eq!(run_of(&reply, 1, [5, 9, 6, 7]), left);
}

/// The old nw_src is in nw_dst before the rewrite overwrites either.
#[test]
fn a_copy_is_rewritten() {
    let masked = one_reply(COPY, Rewrite::to(nw_src(ALL, 1)));
    let exit = both(nw_src(ALL, 1), nw_dst(ALL, 2));
    assert_eq!(back(&masked, exit), find([ALL, 0, 0, 0], [2, 0, 0, 0]));
    assert_eq!(back(&masked, nw_src(ALL, 2)), []);
    let left = filled(&[0, 0, 2, 1, 1, 8, 6, 7]);
    assert_eq!(run_of(&masked, 1, [8, 9, 6, 7]), left);
    // The last byte is written, and so it may disagree.
    let last_byte = one_reply(COPY, Rewrite::to(nw_dst(0xff, 0x33)));
    let exit = both(nw_src(ALL, 0x0a000044), nw_dst(ALL, 0x0a000033));
    let joined = find([ALL, 0, 0, 0], [0x0a000044, 0, 0, 0]);
    assert_eq!(back(&last_byte, exit), joined);
    let left = filled(&[0, 0, 2, 1, 0x0a000044, 0x0a000033, 6, 7]);
    assert_eq!(run_of(&last_byte, 1, [0x0a000044, 9, 6, 7]), left);
}

/// The header of a dropped packet is the swapped one.
#[test]
fn a_drop_entry_swaps() {
    let made = swapped_and_dropped();
    let swapped = filled(&[1, 0, 1, 1, 6, 5, 7, 8, 0]);
    assert_eq!(run_of(&made, 1, [5, 6, 7, 8]), swapped);
    let as_it_came = filled(&[1, 0, 1, 1, 5, 6, 9, 8, 1]);
    assert_eq!(run_of(&made, 1, [5, 6, 9, 8]), as_it_came);
    assert_eq!(asked(verdict, &made, 16, 0), Ok(filled(&[0, 0])));
}

/// Entry 3, then entry 1, swapped back, and entry 0: three units and a find. Then
/// entry 2, where the copy wants nw_src 10.0.0.9; it is tried against entry 1,
/// which leaves what has an even nw_dst; then entry 0: three more, and a find.
#[test]
fn replies_on_the_way() {
    let made = replies_behind_a_link();
    let by_the_swap = [0x60003001, 0x70000000, 0x70000001, 0x70000003];
    let by_the_copy = [0x60003001, 0x70000000, 0x70000002, 0x70000003];
    let to_9 = [0, ALL, 0, 0, 0, 0x0a000009, 0, 0];
    let even_from_9 = [ALL, 1, 0, 0, 0x0a000009, 0, 0, 0];
    let finds = [&by_the_swap, &to_9[..], &by_the_copy, &even_from_9].concat();
    assert_eq!(asked(list, &made, 3, 6), Ok(finds));
    assert_eq!(asked(list, &made, 3, 5), Err((13, 0)));
    // Port 1 may not send from elsewhere: nw_src's first bit is not 10.0.0.9's.
    let reached = filled(&[1, 3, 1, 3, 0x80000000, 0x0a000009, 0, 0, 0, 1, 3]);
    assert_eq!(asked(verdict, &made, 3, 3), Ok(reached));
    let left = filled(&[0, 0, 2, 3, 0x0a000009, 0x80000000, 5, 6, 0, 1, 3]);
    assert_eq!(run_of(&made, 3, [0x80000000, 0x0a000009, 5, 6]), left);
    let by_copy = filled(&[0, 0, 2, 3, 0x0a000009, 0x0a000009, 5, 6, 0, 2, 3]);
    assert_eq!(run_of(&made, 3, [0x0a000009, 4, 5, 6]), by_copy);
    // With two hops left it is still on the way, swapped.
    let travelling = filled(&[3, 0, 13, 2, 0x0a000009, 4, 5, 6, 0, 1]);
    assert_eq!(run_of(&made, 2, [4, 0x0a000009, 5, 6]), travelling);
}

/// Equals that differ in the swap alone are equals; the run stops before them,
/// with what the copy left.
#[test]
fn a_tie_after_a_copy() {
    let made = equals_after_a_copy();
    let tied = filled(&[4, 0, 11, 1, 5, 5, 7, 8, 0]);
    assert_eq!(run_of(&made, 2, [5, 6, 7, 8]), tied);
    let packet = Packet {
        fabric: &made,
        start: 1,
        header: from_words([5, 6, 7, 8]),
        limit: 2,
    };
    let ends = packet.ends(2).unwrap();
    let headers: Vec<_> = ends.iter().map(|end| to_words(end.header)).collect();
    assert_eq!(headers, [[5, 5, 7, 8]; 2]);
}

/// F with a transfer in entry 1, whose second word is word 38.
fn f_with(second: u32) -> Vec<u8> {
    let mut words = to_le_words(&fabric_f());
    words[38] = second;
    to_le_bytes(&words)
}

#[test]
fn the_transfer_in_the_file() {
    for (second, transfer) in [(2, Transfer::None), (0x10000002, COPY), (0x20000002, SWAP)] {
        let fabric = read(&f_with(second)).unwrap();
        assert_eq!(fabric.entries[1].transfer, transfer);
        assert_eq!(fabric.entries[1].out_port, 2);
        assert_eq!(write(&fabric), f_with(second));
    }
    // 3 is refused where the record begins, at word 37.
    assert_eq!(read(&f_with(0x30000002)), Err(Refusal::new(3, 37)));
    let printed = print(&input(VERDICT, &wild_query(2, 1, 2), &f_with(0x30000002)));
    assert_eq!(printed, "no 3 at 37\n");
}

/// E2 with a swap: entry 1 takes nw_dst 10.0.0.2 as before, and entry 0 leaves
/// it the same two parts; only what is wanted at the exit changes its place.
#[test]
fn the_list_of_f_with_a_swap() {
    let exit = both(nw_src(ALL, 0x0a000002), nw_dst(0xff, 5));
    let query = wild_query(2, 1, 2).about(exit);
    let printed = print(&input(LIST, &query, &f_with(0x20000002)));
    let parts = ["00000002 00000000", "00000003 00000000"];
    let values = ["00000002 00000000", "00000000 00000000"];
    let finds = parts.iter().zip(values).map(|(part, value)| {
        let words = format!("60001001 70000001 000000ff ffffffff {part} 00000005 0a000002 {value}");
        words.replace(' ', "\n") + "\n"
    });
    assert_eq!(printed, format!("ok 20\n{}", finds.collect::<String>()));
}
