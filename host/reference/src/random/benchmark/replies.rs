//! A campus that answers.

use super::campus::{
    network, routed, tag, tenant_port, uplink_port, CORES, EVERY_BUILDING, TENANTS,
};
use super::{rewrite, Benchmark};
use crate::examples::entry;
use crate::fabric::Entry;
use crate::set::Set;
use crate::transfer::Transfer;

const BUILDINGS: u16 = 4;

/// The campus with four buildings, each of which answers for its tenants: 384
/// entries, and ways of up to seven hops, there, back and there again.
pub fn replies() -> Benchmark {
    let mut fabric = routed(BUILDINGS, EVERY_BUILDING);
    for building in 0..BUILDINGS {
        for core in 0..CORES {
            let answers = (0..TENANTS).flat_map(|tenant| answers(building, core, tenant));
            fabric.entries.extend(answers);
        }
    }
    Benchmark::all_wild("replies", fabric, tenant_port(0, 0))
}

/// A bit of nw_tos asks for an answer with the addresses swapped, another for the
/// packet itself to be sent back to its nw_src.
const PING: u32 = 0x0400;
const PROBE: u32 = 0x0800;

/// What comes from one core is answered over the next, with that bit cleared, so
/// that nothing goes on for ever.
fn answers(building: u16, core: u16, tenant: u16) -> [Entry; 2] {
    let from = uplink_port(building, core);
    let back = uplink_port(building, (core + 1) % CORES);
    let (to, tag) = (network(building, tenant), tag(tenant));
    let answer = |priority: u16, transfer: Transfer, bit: u32| {
        let care = [0, 0xffff_ff00, 0, 0xffff_0000 | bit];
        Entry {
            matching: Set::of_words(care, [0, to, 0, tag | bit]),
            transfer,
            rewrite: rewrite([0, 0, 0, bit], [0; 4]),
            ..entry(priority, from, back)
        }
    };
    [
        answer(28, Transfer::Swap, PING),
        answer(26, Transfer::Copy, PROBE),
    ]
}
