//! Equal priorities, for document 02's 2.3. Port 1 is where packets start, port
//! 2 the target; where there is a link, it leads from 10 to 11.

use super::{edge, entry, fabric, link, to_tp_dst, tp_dst};
use crate::fabric::Fabric;
use crate::set::Set;

/// At 1, entry 0 drops all, and its equal, entry 1, sends tp_dst 80 out at 2:
/// under one choice alone a foreign packet gets there.
pub fn leak_by_choice() -> Fabric {
    let mut entries = [entry(5, 1, 0), entry(5, 1, 2)];
    entries[1].matching = tp_dst(80);
    fabric(&[edge(1, 1), edge(2, 2)], &[], &entries)
}

/// At 1, entry 0 sends all out at 2, and its equal, entry 1, drops all. Above
/// them entry 2 takes what has the last bit set, and sends it over the link,
/// to where entry 3 sends it out at 2.
pub fn equals_below() -> Fabric {
    let mut entries = [
        entry(3, 1, 2),
        entry(3, 1, 0),
        entry(4, 1, 10),
        entry(3, 11, 2),
    ];
    entries[2].matching = Set { care: 1, value: 1 };
    fabric(&[edge(1, 1), edge(2, 2)], &[link(10, 11)], &entries)
}

/// Entry 0 sends all over the link, with tp_dst 5. There, entry 1 sends all out
/// at 2, and its equal, entry 2, drops all.
pub fn equals_behind_a_link() -> Fabric {
    let mut entries = [entry(7, 1, 10), entry(7, 11, 2), entry(7, 11, 0)];
    entries[0].rewrite = to_tp_dst(5);
    fabric(&[edge(1, 1), edge(2, 2)], &[link(10, 11)], &entries)
}

/// Two entries that are the same.
pub fn alike() -> Fabric {
    let entries = [entry(4, 1, 2), entry(4, 1, 2)];
    fabric(&[edge(1, 1), edge(2, 2)], &[], &entries)
}

/// Six equals behind the link: five send all back over it, entries 1 to 5, and
/// entry 6 sends all out at 2, which is in the group of 1.
pub fn ring_of_equals() -> Fabric {
    let mut entries = vec![entry(1, 1, 10)];
    entries.extend([entry(1, 11, 10); 5]);
    entries.push(entry(1, 11, 2));
    fabric(&[edge(1, 1), edge(1, 2)], &[link(10, 11)], &entries)
}
