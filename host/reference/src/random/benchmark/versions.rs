//! Fabrics in both versions, to measure what version 2 costs. None has more than its
//! 400 entries.

use super::campus::{routed, tenant_port, EVERY_BUILDING};
use super::deep_ring::Ring;
use super::descents::every_beater_meets_on;
use super::random_denies::random_denies_at;
use super::random_transit::random_transit_of;
use super::{replies, routed_campus, twenty_denies, Benchmark};
use crate::bits::{Bits, Wide};
use crate::wide::{widened, widened_query, Set};

/// The same fabric in version 1 and in version 2.
#[derive(Clone, Debug)]
pub struct InBoth {
    pub old: Benchmark,
    pub wide: Benchmark<Wide>,
}

impl InBoth {
    fn widened(old: Benchmark, name: &'static str) -> InBoth {
        let wide = Benchmark {
            name,
            fabric: widened(&old.fabric),
            query: widened_query(&old.query),
        };
        InBoth { old, wide }
    }
}

/// Those that time is measured with. In all but the last the words more don't matter.
pub fn in_both_versions() -> Vec<InBoth> {
    let ring = Ring::OF_FIVE.benchmark("ring of five");
    let denies = random_denies_at(8, "denies at eight");
    let transit = random_transit_of(16, "transit of 400");
    vec![
        InBoth::widened(campus_of_five(), "campus of five v2"),
        InBoth::widened(routed_campus(), "routed campus v2"),
        InBoth::widened(twenty_denies(), "twenty denies v2"),
        InBoth::widened(ring, "ring of five v2"),
        InBoth::widened(replies(), "replies v2"),
        InBoth::widened(denies, "denies at eight v2"),
        InBoth::widened(transit, "transit of 400 v2"),
        told_by_ethernet(),
    ]
}

/// The deepest descent of version 2: 16 hops, and 62 or 63 beaters at each, all met.
pub fn deepest_in_version_2() -> InBoth {
    let old = every_beater_meets_on(&Ring::OF_FIVE);
    InBoth::widened(old, "every beater, v2")
}

/// A routed campus of five buildings and 370 entries.
fn campus_of_five() -> Benchmark {
    let fabric = routed(5, EVERY_BUILDING);
    Benchmark::all_wild("campus of five", fabric, tenant_port(0, 0))
}

/// The campus of five whose hosts are told by dl_src and dl_dst, as those of the other
/// are by nw_src and nw_dst.
fn told_by_ethernet() -> InBoth {
    let mut told = InBoth::widened(campus_of_five(), "Ethernet campus v2");
    let fabric = &mut told.wide.fabric;
    for edge in &mut fabric.edges {
        edge.admitted = by_ethernet(edge.admitted);
    }
    for entry in &mut fabric.entries {
        entry.matching = by_ethernet(entry.matching);
    }
    told
}

/// What is wanted of an address is wanted of the last 32 bits of the other.
fn by_ethernet(set: Set) -> Set {
    set.map(|bits| {
        let [src, dst, ..] = bits.to_words().map(u128::from);
        Wide {
            old: bits.old << 64 >> 64,
            ethernet: src << 80 | dst << 32,
        }
    })
}
