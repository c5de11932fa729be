//! Random numbers, and what is made from them: fabrics, queries, damaged files, of
//! the version that the numbers are for. All of it follows from a seed.

mod benchmark;
mod crowded;
mod damage;
mod denies;
mod equals;
mod ethernet;
mod largest;
mod misses;
mod parts;
mod queries;
mod ring;
mod small;
pub mod source;
mod switches;
mod transfers;

pub use benchmark::{
    audited, benchmarks, campus, deep_ring, deepest_in_version_2, denies_on_fields,
    every_beater_meets, in_both_versions, lost_packets, no_beater_meets, random_denies,
    random_transit, replies, routed_campus, twenty_denies, Benchmark, InBoth,
};
pub use crowded::crowded;
pub use damage::{damage, inflict, Damage, Damaged};
pub use denies::{beater_chain, wild_under_denies};
pub use largest::largest;
pub use queries::{list_query, packet, query, small_query};
pub use ring::ring;
pub use small::{dead_ends, leaky_ring, small, small_ring, ties, tiny, Small};
pub use source::{cases, cases_of, wide_cases};
pub use switches::switches;

use crate::bits::{Bits, Wide};
use crate::fabric::Fabric;
use crate::set::Header;

/// What fabrics of version 1 are made from.
pub type Rng = source::Rng<Header>;
/// The same of version 2.
pub type WideRng = source::Rng<Wide>;

/// What every fabric gets in the end: copies and swaps, then ties, then what comes
/// of a table miss.
fn finish<B: Bits>(rng: &mut source::Rng<B>, fabric: &mut Fabric<B>) {
    transfers::scatter(rng, fabric);
    equals::settle(rng, fabric);
    misses::choose(rng, fabric);
}

/// A fabric from any of the generators.
pub fn any<B: Bits>(rng: &mut source::Rng<B>) -> Fabric<B> {
    match rng.below(10) {
        0 => tiny(rng).fabric,
        1 => ties(rng).fabric,
        2 => dead_ends(rng).fabric,
        3 => match rng.below(3) {
            0 => small(rng).fabric,
            1 => small_ring(rng).fabric,
            _ => leaky_ring(rng).fabric,
        },
        4 | 5 => switches(rng),
        6 => ring(rng),
        7 => beater_chain(rng),
        8 => wild_under_denies(rng),
        _ => largest(rng),
    }
}
