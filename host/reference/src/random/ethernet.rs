//! Ethernet fields on purpose, or none at all; in version 1 there are none.

use super::source::Rng;
use crate::bits::Bits;
use crate::ethernet::{having, DL_DST, DL_SRC, DL_TYPE, DL_VLAN_PCP};
use crate::fabric::Fabric;
use crate::set::{Rewrite, Set};

/// In a third of the fabrics no set or rewrite has an Ethernet field, in a third one
/// in two does, in a third one in five.
pub(super) fn scatter<B: Bits>(rng: &mut Rng<B>, fabric: &mut Fabric<B>) {
    if B::VERSION == 1 {
        return;
    }
    let Some(times) = rng.one_of([None, Some(2), Some(5)]) else {
        return;
    };
    for edge in &mut fabric.edges {
        if rng.once_in(times) {
            edge.admitted = with_a_field(rng, edge.admitted);
        }
    }
    for entry in &mut fabric.entries {
        if rng.once_in(times) {
            entry.matching = with_a_field(rng, entry.matching);
        }
        if rng.once_in(2 * times) {
            let written = entry.rewrite.written();
            entry.rewrite = Rewrite::to(with_a_field(rng, written));
        }
    }
}

/// A set, held to an Ethernet field's value too.
fn with_a_field<B: Bits>(rng: &mut Rng<B>, set: Set<B>) -> Set<B> {
    let held = set.intersect(&some_field(rng));
    held.unwrap_or(set)
}

/// A whole field or a few bits of it, with one of few values.
fn some_field<B: Bits>(rng: &mut Rng<B>) -> Set<B> {
    let number = rng.between(1, 3) as u64;
    let host = 0x0200_0000_0000 | number << 16 | number;
    match rng.below(8) {
        0 => having(DL_SRC, host),
        1 => having(DL_DST, host),
        // The last bits of the one, and the first of the other.
        2 => having(DL_SRC.end - 2..DL_SRC.end, number),
        3 => having(DL_DST.start..DL_DST.start + 2, number),
        4 => having(DL_TYPE, rng.one_of([0x0800, 0x0806, 0x86dd])),
        5 => having(DL_TYPE.end - 1..DL_TYPE.end, number),
        6 => having(DL_VLAN_PCP, number),
        _ => having(DL_VLAN_PCP.end - 2..DL_VLAN_PCP.end, number),
    }
}
