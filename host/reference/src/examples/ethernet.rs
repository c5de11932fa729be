//! Ethernet fields, for document 02's 2.6. Port 1 is where packets start, port 2 the
//! target; a link leads from 10 to 11. Hosts are 02:00:00:00:00:01 and so on.

use super::link;
use crate::ethernet::{having, DL_DST, DL_SRC, DL_TYPE, DL_VLAN_PCP};
use crate::file::to_le_bytes;
use crate::transfer::Transfer;
use crate::wide::{Edge, Entry, Fabric, Rewrite, Set};
use crate::Link;

/// Document 01's fabric F in version 2, as 104 words.
pub fn wide_f() -> Vec<u8> {
    let mut words = vec![0x10020068];
    words.push(0x20007001);
    words.extend([0; 16]);
    words.push(0x20009002);
    words.extend([0; 16]);
    words.extend([0x40014001, 0]);
    words.extend([0, 0, 3, 0, 0, 0, 0, 0]);
    words.extend([0, 0, 1, 0, 0, 0, 0, 0]);
    words.extend([0; 16]);
    words.extend([0x4000a001, 2]);
    words.extend([0, 0xffffffff, 0, 0, 0, 0, 0, 0]);
    words.extend([0, 0x0a000002, 0, 0, 0, 0, 0, 0]);
    words.extend([0; 16]);
    words.push(0x50000000);
    to_le_bytes(&words)
}

/// A version 2 file of these words after a right start.
pub fn wide_file_of(records: &[u32]) -> Vec<u8> {
    let mut words = vec![0x10020000 + records.len() as u32 + 1];
    words.extend(records);
    to_le_bytes(&words)
}

/// An edge or entry record of version 2 with 0 in its further words.
pub fn wide_record(first: u32) -> Vec<u32> {
    let mut record = vec![first];
    record.resize(if first >> 28 == 2 { 17 } else { 34 }, 0);
    record
}

/// Ports 1 and 2 are edges, of these groups.
pub fn wide_fabric(groups: [u16; 2], links: &[Link], entries: &[Entry]) -> Fabric {
    Fabric {
        edges: vec![Edge::open(groups[0], 1), Edge::open(groups[1], 2)],
        links: links.to_vec(),
        entries: entries.to_vec(),
        ..Fabric::default()
    }
}

/// The address of this host.
fn host(number: u64) -> u64 {
    0x0200_0000_0000 | number
}

/// At 1, entry 0 drops ARP, and entry 1 sends the rest out at 2.
pub fn no_arp() -> Fabric {
    let mut entries = [Entry::plain(2, 1, 0), Entry::plain(1, 1, 2)];
    entries[0].matching = having(DL_TYPE, 0x0806);
    wide_fabric([1, 2], &[], &entries)
}

/// At 1, entry 0 sends all over the link, from host 1 to host 2. There, entry 1
/// sends what is for host 2 out at 2, and entry 2 drops the rest.
pub fn routed() -> Fabric {
    let mut entries = [
        Entry::plain(1, 1, 10),
        Entry::plain(2, 11, 2),
        Entry::plain(1, 11, 0),
    ];
    let from_1_to_2 = from_host(1).intersect(&to_host(2));
    entries[0].rewrite = from_1_to_2.map_or(Rewrite::NONE, Rewrite::to);
    entries[1].matching = to_host(2);
    wide_fabric([1, 2], &[link(10, 11)], &entries)
}

pub fn from_host(number: u64) -> Set {
    having(DL_SRC, host(number))
}

pub fn to_host(number: u64) -> Set {
    having(DL_DST, host(number))
}

/// All leaves from 1 at 2, in one group; but port 1 may send as host 5 alone.
pub fn one_host_admitted() -> Fabric {
    let mut made = wide_fabric([1, 1], &[], &[Entry::plain(1, 1, 2)]);
    made.edges[0].admitted = from_host(5);
    made
}

/// At 1, entry 0 takes what has dl_vlan_pcp 5, and sends it out at 2; the rest is
/// lost, and so is all at 2.
pub fn one_pcp_taken() -> Fabric {
    let mut entries = [Entry::plain(1, 1, 2)];
    entries[0].matching = having(DL_VLAN_PCP, 5);
    wide_fabric([1, 2], &[], &entries)
}

/// At 1, entry 0 takes all, does this and sends it out at 2.
pub fn wide_reply(transfer: Transfer) -> Fabric {
    let only = Entry {
        transfer,
        ..Entry::plain(1, 1, 2)
    };
    wide_fabric([1, 2], &[], &[only])
}

/// At 1, entry 0 drops what has a bit of each kind of word: the first, the fourth's
/// last, dl_src's first and last, dl_dst's first, and dl_vlan_pcp's last. Entry 1
/// sends the rest out at 2.
pub fn denied_across_words() -> Fabric {
    let mut entries = [Entry::plain(2, 1, 0), Entry::plain(1, 1, 2)];
    let bits = [0x80000000, 0, 0, 1, 0x80000000, 0x00018000, 0, 0x0100];
    entries[0].matching = Set::of_words(bits, bits);
    wide_fabric([1, 2], &[], &entries)
}
