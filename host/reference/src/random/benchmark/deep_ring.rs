//! The deep ring.

use super::{deny, one_group, rewrite, Benchmark};
use crate::examples::entry;
use crate::fabric::{Entry, Fabric, Link, MOST_ENTRIES_PER_IN_PORT};
use crate::set::Set;

pub(super) const START: u16 = 1;
pub(super) const TARGET: u16 = 2;

/// The deep ring: 512 entries at eight in-ports, a way of 16 hops, 62 or 63
/// beaters at each, and 256 finds.
pub fn deep_ring() -> Benchmark {
    Ring::OF_SEVEN.benchmark("deep ring")
}

/// So many switches, each with an in-port and an out-port on the ring; the start is at
/// switch 1. At every in-port there are as many entries as there can be.
///
/// dl_vlan counts the laps: a packet starts in lap 0, the last switch sends it on in
/// the next one, and it leaves at one switch after so many laps, having made 16 hops.
/// At every in-port there are denies on a single address bit, which every allow
/// writes, so that they all meet again at the next hop; and one on two bits of tp_src,
/// which doubles the parts.
pub(super) struct Ring {
    pub(super) switches: u16,
    /// Where packets leave, and after how many laps.
    pub(super) exit: u16,
    laps: u16,
}

impl Ring {
    pub(super) const OF_SEVEN: Ring = Ring {
        switches: 7,
        exit: 2,
        laps: 2,
    };
    /// As many as version 2 has room for: 384 entries.
    pub(super) const OF_FIVE: Ring = Ring {
        switches: 5,
        exit: 1,
        laps: 3,
    };

    pub(super) fn benchmark(&self, name: &'static str) -> Benchmark {
        let mut fabric = one_group(START, TARGET);
        let enter = allow(1, START, ring_out(1), Set::ALL_WILD, Some(0));
        fabric.entries.push(enter);
        self.add_denies(&mut fabric, START, 0);
        for switch in 1..=self.switches {
            fabric.links.push(self.link_from(switch));
            fabric.entries.extend(self.allows(switch));
            self.add_denies(&mut fabric, ring_in(switch), switch);
        }
        Benchmark::all_wild(name, fabric, TARGET)
    }

    /// To the next switch.
    pub(super) fn link_from(&self, switch: u16) -> Link {
        Link {
            from: ring_out(switch),
            to: ring_in(switch % self.switches + 1),
        }
    }

    /// What a switch does with packets on the ring.
    fn allows(&self, switch: u16) -> Vec<Entry> {
        let (from, to) = (ring_in(switch), ring_out(switch));
        let next_lap = |lap: u16| allow(self.laps - lap, from, to, in_lap(lap), Some(lap + 1));
        if switch == self.exit {
            vec![
                allow(2, from, TARGET, in_lap(self.laps), None),
                allow(1, from, to, Set::ALL_WILD, None),
            ]
        } else if switch == self.switches {
            (0..self.laps).map(next_lap).collect()
        } else {
            vec![allow(1, from, to, Set::ALL_WILD, None)]
        }
    }

    /// Denies until the in-port has 64 entries: one on this switch's two bits of
    /// tp_src, the others on one address bit each. They beat every allow.
    fn add_denies(&self, fabric: &mut Fabric, in_port: u16, switch: u16) {
        let here = fabric
            .entries
            .iter()
            .filter(|entry| entry.in_port == in_port);
        let allows = here.count();
        let priority = self.laps + 1;
        let pair = 0b11 << (16 + 2 * switch);
        let doubling = Set::of_words([0, 0, pair, 0], [0, 0, pair, 0]);
        fabric.entries.push(deny(priority, in_port, doubling));
        for bit in allows + 1..MOST_ENTRIES_PER_IN_PORT {
            let address_bit = 1 << (64 + bit);
            let matching = Set {
                care: address_bit,
                value: address_bit,
            };
            fabric.entries.push(deny(priority, in_port, matching));
        }
    }
}

pub(super) fn ring_in(switch: u16) -> u16 {
    10 + switch
}

pub(super) fn ring_out(switch: u16) -> u16 {
    20 + switch
}

/// An allow that writes the addresses and, if given, the lap.
fn allow(priority: u16, in_port: u16, out_port: u16, matching: Set, lap: Option<u16>) -> Entry {
    let tag = if lap.is_some() { 0xffff_0000 } else { 0 };
    let value = u32::from(lap.unwrap_or(0)) << 16;
    Entry {
        matching,
        rewrite: rewrite([u32::MAX, u32::MAX, 0, tag], [0, 0, 0, value]),
        ..entry(priority, in_port, out_port)
    }
}

fn in_lap(lap: u16) -> Set {
    Set::of_word(3, 0xffff_0000, u32::from(lap) << 16)
}
