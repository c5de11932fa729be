//! Many beaters, of which few meet.

use std::ops::Range;

use super::finish;
use super::parts::{both, rewrite_over, set_over, some_ports, spread_bits, tidy};
use super::small::{random_edge, Small};
use super::source::Rng;
use crate::bits::Bits;
use crate::examples::link;
use crate::fabric::{Entry, Fabric, MOST_ENTRIES_PER_IN_PORT};
use crate::set::Set;

/// One to three in-ports, one behind the other, from one edge to another. Each has
/// a wide entry that leads on, and up to 63 others anywhere in the file, most of
/// which don't meet it, since their tag is another.
pub fn crowded<B: Bits>(rng: &mut Rng<B>) -> Small<B> {
    let in_ports = rng.between(1, 3);
    let ports = some_ports(rng, 2 * in_ports);
    let mut bits = spread_bits(rng, 6);
    bits.retain(|bit| !tag_bits::<B>().contains(bit));
    let mut fabric = Fabric::default();
    for (place, way) in ports.chunks(2).enumerate() {
        let (in_port, out_port) = (way[0], way[1]);
        match place {
            0 => fabric.edges.push(random_edge(rng, in_port, &bits)),
            _ => fabric.links.push(link(ports[2 * place - 1], in_port)),
        }
        add_entries(rng, &mut fabric, [in_port, out_port], &bits);
    }
    let target = ports[ports.len() - 1];
    fabric.edges.push(random_edge(rng, target, &bits));
    tidy(&mut fabric);
    rng.shuffle(&mut fabric.entries);
    finish(rng, &mut fabric);
    bits.extend(tag_bits::<B>());
    Small { fabric, bits }
}

fn add_entries<B: Bits>(rng: &mut Rng<B>, fabric: &mut Fabric<B>, way: [u16; 2], bits: &[u32]) {
    let [in_port, out_port] = way;
    fabric.entries.push(Entry {
        matching: rng.one_of([tagged(OWN), tagged(OWN), Set::ALL_WILD]),
        ..Entry::plain(rng.below(2) as u16, in_port, out_port)
    });
    let most = rng.one_of([6, 20, MOST_ENTRIES_PER_IN_PORT - 1]);
    for _ in 0..rng.between(1, most) {
        let other = rng.below(7) as u32;
        let tag = if rng.once_in(8) { OWN } else { other };
        let out_port = rng.one_of([0, 0, 0, out_port]);
        fabric.entries.push(Entry {
            matching: both(tagged(tag), set_over(rng, bits, 2)),
            rewrite: rewrite_over(rng, bits, 2),
            ..Entry::plain(rng.below(5) as u16, in_port, out_port)
        });
    }
}

/// The tag of the entries that lead on.
const OWN: u32 = 7;

/// An entry's tag stands in the last three bits of dl_vlan, or of dl_vlan_pcp in
/// version 2: its word, and its last bit's place there.
fn tag_place<B: Bits>() -> (usize, u32) {
    match B::VERSION {
        1 => (3, 16),
        _ => (7, 8),
    }
}

fn tag_bits<B: Bits>() -> Range<u32> {
    let (word, place) = tag_place::<B>();
    let last = B::number(word, place);
    last..last + 3
}

fn tagged<B: Bits>(tag: u32) -> Set<B> {
    let (word, place) = tag_place::<B>();
    Set::of_word(word, 7 << place, tag << place)
}
