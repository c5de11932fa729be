//! Fabrics to measure time and stack with. In each of them the target is isolated,
//! so that a verdict has to make the whole trace.

mod audited;
mod campus;
mod deep_ring;
mod descents;
mod fields;
mod lost;
mod random_denies;
mod random_transit;
mod replies;
mod routed_campus;
mod versions;

pub use audited::audited;
pub use campus::campus;
pub use deep_ring::deep_ring;
pub use descents::{every_beater_meets, no_beater_meets};
pub use fields::denies_on_fields;
pub use lost::lost_packets;
pub use random_denies::random_denies;
pub use random_transit::random_transit;
pub use replies::replies;
pub use routed_campus::routed_campus;
pub use versions::{deepest_in_version_2, in_both_versions, InBoth};

use crate::bits::Bits;
use crate::calls::Query;
use crate::examples::{edge, entry, fabric, wild_query};
use crate::fabric::{Entry, Fabric};
use crate::set::{Header, Rewrite, Set};

/// A fabric and what to ask of it.
#[derive(Clone, Debug)]
pub struct Benchmark<B: Bits = Header> {
    pub name: &'static str,
    pub fabric: Fabric<B>,
    pub query: Query<B::Words>,
}

impl Benchmark {
    fn all_wild(name: &'static str, mut fabric: Fabric, target: u16) -> Benchmark {
        super::parts::tidy(&mut fabric);
        let query = wild_query(u32::from(target), 16, u32::MAX);
        Benchmark {
            name,
            fabric,
            query,
        }
    }
}

/// Those that time is measured with, a row each.
pub fn benchmarks() -> Vec<Benchmark> {
    vec![
        campus(),
        routed_campus(),
        twenty_denies(),
        deep_ring(),
        replies(),
        random_denies(),
        random_transit(),
    ]
}

fn rewrite(mask: [u32; 4], value: [u32; 4]) -> Rewrite {
    Rewrite::to(Set::of_words(mask, value))
}

fn deny(priority: u16, in_port: u16, matching: Set) -> Entry {
    Entry {
        matching,
        ..entry(priority, in_port, 0)
    }
}

/// Two edges of one group that admit every header.
fn one_group(start: u16, target: u16) -> Fabric {
    fabric(&[edge(1, start), edge(1, target)], &[], &[])
}

/// An all-wild allow under twenty denies of two bits each: every deny doubles
/// the parts, which makes 2^20 units and as many finds.
pub fn twenty_denies() -> Benchmark {
    let (start, target) = (1, 2);
    let mut fabric = one_group(start, target);
    for number in 0..20 {
        let two_bits = 0b1001 << (6 * number);
        let matching = Set {
            care: two_bits,
            value: two_bits,
        };
        fabric.entries.push(deny(2, start, matching));
    }
    fabric.entries.push(entry(1, start, target));
    Benchmark::all_wild("twenty denies", fabric, target)
}
