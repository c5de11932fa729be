//! One allow under many denies.

use super::finish;
use super::parts::{mask_of, proper, some_ports, spread_bits, tidy};
use super::small::random_edge;
use super::source::Rng;
use crate::bits::Bits;
use crate::fabric::{Entry, Fabric, MOST_ENTRIES_PER_IN_PORT};
use crate::set::Set;

/// One allow with up to 63 beaters, standing anywhere in the file.
pub fn beater_chain<B: Bits>(rng: &mut Rng<B>) -> Fabric<B> {
    let beaters = rng.between(1, MOST_ENTRIES_PER_IN_PORT - 1);
    let mut fabric = two_edges(rng);
    let (start, target) = (fabric.edges[0].port, fabric.edges[1].port);
    let cared = if rng.once_in(2) { 16 } else { 8 };
    let (word, place) = denied_field(rng);
    for _ in 0..beaters {
        // The field's first bits, or a single bit of nw_tos.
        let first_bits = 0xffff << (16 - cared) & 0xffff;
        let denied = u32::from(rng.draw() as u16);
        let field = Set::of_word(word, first_bits << place, denied << place);
        let tos = Set {
            care: B::bit(B::number(3, rng.between(8, 15) as u32)),
            value: rng.bits(),
        };
        let matching = if rng.once_in(8) { tos } else { field };
        let priority = rng.between(1, 3) as u16;
        let out_port = rng.one_of([0, 0, 0, target]);
        fabric.entries.push(Entry {
            matching: proper(matching),
            ..Entry::plain(priority, start, out_port)
        });
    }
    fabric.entries.push(Entry::plain(0, start, target));
    rng.shuffle(&mut fabric.entries);
    finish(rng, &mut fabric);
    fabric
}

/// Sixteen bits by their word and their last one's place there: tp_dst, and in
/// version 2 also the last of dl_src, the first of dl_dst, and dl_type.
fn denied_field<B: Bits>(rng: &mut Rng<B>) -> (usize, u32) {
    match B::VERSION {
        1 => (2, 0),
        _ => rng.one_of([(2, 0), (5, 16), (5, 0), (7, 16)]),
    }
}

/// An all-wild allow under up to eight denies of a few bits anywhere: parts
/// multiply.
pub fn wild_under_denies<B: Bits>(rng: &mut Rng<B>) -> Fabric<B> {
    let mut fabric = two_edges(rng);
    let (start, target) = (fabric.edges[0].port, fabric.edges[1].port);
    for _ in 0..rng.between(1, 8) {
        let bits = spread_bits(rng, 3);
        fabric.entries.push(Entry {
            matching: proper(Set {
                care: mask_of(&bits),
                value: rng.bits(),
            }),
            ..Entry::plain(2, start, 0)
        });
    }
    fabric.entries.push(Entry::plain(0, start, target));
    rng.shuffle(&mut fabric.entries);
    finish(rng, &mut fabric);
    fabric
}

fn two_edges<B: Bits>(rng: &mut Rng<B>) -> Fabric<B> {
    let mut fabric = Fabric::default();
    let bits = spread_bits(rng, 8);
    for port in some_ports(rng, 2) {
        fabric.edges.push(random_edge(rng, port, &bits));
    }
    tidy(&mut fabric);
    if rng.once_in(2) {
        fabric.edges[0].group = fabric.edges[1].group;
    }
    fabric
}
