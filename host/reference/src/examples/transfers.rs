//! Reply entries, for document 02's 2.5. Port 1 is where packets start, port 2
//! the target; links lead from 10 to 11 and from 12 to 13.

use super::{edge, entry, fabric, link, tp_dst};
use crate::fabric::{Entry, Fabric};
use crate::set::{Rewrite, Set};
use crate::transfer::Transfer;

/// The headers whose nw_src has this value where the mask has a bit.
pub fn nw_src(mask: u32, value: u32) -> Set {
    Set::of_words([mask, 0, 0, 0], [value, 0, 0, 0])
}

/// The same of nw_dst.
pub fn nw_dst(mask: u32, value: u32) -> Set {
    Set::of_words([0, mask, 0, 0], [0, value, 0, 0])
}

/// At 1 the one entry takes all, does this, and sends it out at 2.
pub fn one_reply(transfer: Transfer, rewrite: Rewrite) -> Fabric {
    let only = Entry {
        transfer,
        rewrite,
        ..entry(1, 1, 2)
    };
    fabric(&[edge(1, 1), edge(2, 2)], &[], &[only])
}

/// At 1, entry 0 swaps and drops what has tp_dst 7, entry 1 drops the rest.
pub fn swapped_and_dropped() -> Fabric {
    let mut entries = [entry(2, 1, 0), entry(1, 1, 0)];
    entries[0].matching = tp_dst(7);
    entries[0].transfer = Transfer::Swap;
    fabric(&[edge(1, 1), edge(2, 2)], &[], &entries)
}

/// Entry 0 sends all over the first link. There, entry 1 swaps the addresses of
/// what has an odd nw_dst, and entry 2 copies nw_src over that of the rest; both
/// send over the second link, where entry 3 lets out at 2 what comes from
/// 10.0.0.9. Port 1 may send as 10.0.0.9, and is in the group of 2.
pub fn replies_behind_a_link() -> Fabric {
    let mut entries = [
        entry(1, 1, 10),
        entry(5, 11, 12),
        entry(4, 11, 12),
        entry(1, 13, 2),
    ];
    entries[1].matching = nw_dst(1, 1);
    entries[1].transfer = Transfer::Swap;
    entries[2].transfer = Transfer::Copy;
    entries[3].matching = nw_src(u32::MAX, 0x0a00_0009);
    let mut edges = [edge(1, 1), edge(1, 2)];
    edges[0].admitted = nw_src(u32::MAX, 0x0a00_0009);
    fabric(&edges, &[link(10, 11), link(12, 13)], &entries)
}

/// Entry 0 copies, and sends all over the first link. There, entry 1 swaps and
/// sends out at 2, and so does its equal, entry 2, but for the swap.
pub fn equals_after_a_copy() -> Fabric {
    let mut entries = [entry(7, 1, 10), entry(7, 11, 2), entry(7, 11, 2)];
    entries[0].transfer = Transfer::Copy;
    entries[1].transfer = Transfer::Swap;
    fabric(&[edge(1, 1), edge(2, 2)], &[link(10, 11)], &entries)
}
