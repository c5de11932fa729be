//! The deepest descents: 16 hops, and 62 or 63 beaters at each.

use super::deep_ring::{ring_in, ring_out, Ring, START, TARGET};
use super::{deny, one_group, rewrite, Benchmark};
use crate::examples::entry;
use crate::fabric::{Entry, MOST_ENTRIES_PER_IN_PORT};
use crate::set::{Rewrite, Set};

/// Every beater meets the part and leaves one part of it: allows write the
/// addresses, and each deny is for one address bit.
pub fn every_beater_meets() -> Benchmark {
    every_beater_meets_on(&Ring::OF_SEVEN)
}

pub(super) fn every_beater_meets_on(ring: &Ring) -> Benchmark {
    let descent = Descent {
        name: "every beater meets",
        allowed: Set::ALL_WILD,
        written: rewrite([u32::MAX, u32::MAX, 0, 0], [0; 4]),
        denied: |number| Set {
            care: 1 << (64 + number),
            value: 1 << (64 + number),
        },
    };
    descent.benchmark(ring)
}

/// No beater meets the part: denies are for one bit of nw_tos, allows for its
/// opposite.
pub fn no_beater_meets() -> Benchmark {
    let descent = Descent {
        name: "no beater meets",
        allowed: Set::of_words([0, 0, 0, 0x0100], [0; 4]),
        written: Rewrite::NONE,
        denied: |number| {
            let tag = (number as u32) << 16;
            Set::of_words([0, 0, 0, 0xffff_0100], [0, 0, 0, tag | 0x0100])
        },
    };
    descent.benchmark(&Ring::OF_SEVEN)
}

/// What its allows match and write, and what its denies match, by number.
struct Descent {
    name: &'static str,
    allowed: Set,
    written: Rewrite,
    denied: fn(usize) -> Set,
}

impl Descent {
    /// The deep ring without laps: at one switch a packet may leave or go on, by two
    /// equals. So of seven the finds have 2, 9 and 16 hops.
    fn benchmark(&self, ring: &Ring) -> Benchmark {
        let mut fabric = one_group(START, TARGET);
        fabric.entries.extend(self.entries(START, &[ring_out(1)]));
        for switch in 1..=ring.switches {
            let on = ring_out(switch);
            let out_ports = if switch == ring.exit {
                &[TARGET, on][..]
            } else {
                &[on]
            };
            let entries = self.entries(ring_in(switch), out_ports);
            fabric.entries.extend(entries);
            fabric.links.push(ring.link_from(switch));
        }
        Benchmark::all_wild(self.name, fabric, TARGET)
    }

    /// An allow to each of these, under as many denies as there can be.
    fn entries<'a>(
        &'a self,
        in_port: u16,
        out_ports: &'a [u16],
    ) -> impl Iterator<Item = Entry> + 'a {
        let allows = out_ports.iter().map(move |&out_port| Entry {
            matching: self.allowed,
            rewrite: self.written,
            ..entry(1, in_port, out_port)
        });
        let numbers = out_ports.len()..MOST_ENTRIES_PER_IN_PORT;
        allows.chain(numbers.map(move |number| deny(2, in_port, (self.denied)(number))))
    }
}
