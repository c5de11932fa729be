//! What random fabrics are put together from.

use super::source::Rng;
use crate::bits::Bits;
use crate::fabric::{Fabric, PORTS};
use crate::set::{Rewrite, Set};

/// Edges and links in rising order, as question 4 wants them.
pub(super) fn tidy<B>(fabric: &mut Fabric<B>) {
    fabric.edges.sort_by_key(|edge| edge.port);
    fabric.links.sort_by_key(|link| link.from);
}

/// Different ports in random order, often the last port among them.
pub(super) fn some_ports<B: Bits>(rng: &mut Rng<B>, number: usize) -> Vec<u16> {
    let mut ports: Vec<u16> = (1..PORTS as u16).collect();
    rng.shuffle(&mut ports);
    let last = ports
        .iter()
        .position(|&port| usize::from(port) == PORTS - 1);
    if let (Some(last), true) = (last, rng.once_in(3)) {
        ports.swap(last, rng.below(number.min(PORTS - 1)));
    }
    ports.truncate(number);
    ports
}

/// Mostly an edge or the end of a link, once in `inward` any port.
pub(super) fn in_port<B: Bits>(
    rng: &mut Rng<B>,
    fabric: &Fabric<B>,
    ports: &[u16],
    inward: usize,
) -> u16 {
    let edges = fabric.edges.iter().map(|edge| edge.port);
    let ends = fabric.links.iter().map(|link| link.to);
    let open: Vec<u16> = edges.chain(ends).collect();
    let from = if open.is_empty() || rng.once_in(inward) {
        ports
    } else {
        &open
    };
    *rng.pick(from).unwrap_or(&1)
}

/// Mostly an edge or the start of a link, sometimes a drop or any port.
pub(super) fn out_port<B: Bits>(
    rng: &mut Rng<B>,
    fabric: &Fabric<B>,
    ports: &[u16],
    in_port: u16,
) -> u16 {
    let edges: Vec<u16> = fabric.edges.iter().map(|edge| edge.port).collect();
    let starts: Vec<u16> = fabric.links.iter().map(|link| link.from).collect();
    let from = match rng.below(10) {
        0 => &[0],
        1 => ports,
        2..=5 => &starts[..],
        _ => &edges[..],
    };
    let port = *rng.pick(from).unwrap_or(&0);
    if port == in_port {
        0
    } else {
        port
    }
}

/// Different bits, 3 to 64: some of nw_src with the same ones of nw_dst, and others
/// of the words behind these.
pub(super) fn spread_bits<B: Bits>(rng: &mut Rng<B>, number: usize) -> Vec<u32> {
    // In version 2 fewer of the addresses, so that there are Ethernet fields' too.
    let addresses = 2 * rng.between(1, 2 * number / B::WORDS);
    let mut bits: Vec<u32> = Vec::new();
    while bits.len() < number {
        let place = rng.below(32) as u32;
        let new = match bits.len() < addresses {
            true => vec![B::number(0, place), B::number(1, place)],
            false => vec![B::number(word_behind(rng, bits.len()), place)],
        };
        if !bits.contains(&new[0]) && !B::ZERO_BITS.has(new[0]) {
            bits.extend(new);
        }
    }
    bits
}

/// A word behind the addresses, for a bit after so many others.
fn word_behind<B: Bits>(rng: &mut Rng<B>, others: usize) -> usize {
    match B::VERSION {
        1 => 3 - others % 2,
        _ => rng.one_of([2, 3, 4, 5, 5, 6, 7, 7]),
    }
}

pub(super) fn mask_of<B: Bits>(bits: &[u32]) -> B {
    bits.iter().fold(B::NONE, |mask, &bit| mask | B::bit(bit))
}

pub(super) fn proper<B: Bits>(set: Set<B>) -> Set<B> {
    Set {
        care: set.care,
        value: set.value & set.care,
    }
}

/// A set that cares for up to `most` of these bits.
pub(super) fn set_over<B: Bits>(rng: &mut Rng<B>, bits: &[u32], most: usize) -> Set<B> {
    let mut bits = bits.to_vec();
    rng.shuffle(&mut bits);
    bits.truncate(rng.below(most + 1));
    proper(Set {
        care: mask_of(&bits),
        value: rng.bits(),
    })
}

/// Mostly none; else a rewrite of up to `most` of these bits.
pub(super) fn rewrite_over<B: Bits>(rng: &mut Rng<B>, bits: &[u32], most: usize) -> Rewrite<B> {
    if !rng.once_in(3) {
        return Rewrite::NONE;
    }
    Rewrite::to(set_over(rng, bits, most))
}

/// The headers in both of two sets that care for different bits.
pub(super) fn both<B: Bits>(one: Set<B>, other: Set<B>) -> Set<B> {
    Set {
        care: one.care | other.care,
        value: one.value | other.value,
    }
}

/// 10.switch.place.0
pub(super) fn address(switch: usize, place: usize) -> u32 {
    10 << 24 | (switch as u32) << 16 | (place as u32) << 8
}

/// The headers whose given word starts with this many bits of the address.
pub(super) fn prefix_of<B: Bits>(word: usize, address: u32, length: u32) -> Set<B> {
    let mask = u32::MAX.checked_shl(32 - length).unwrap_or(0);
    Set::of_word(word, mask, address)
}

/// Mostly none; else dl_vlan, tp_dst, nw_tos or an address.
pub(super) fn field_rewrite<B: Bits>(rng: &mut Rng<B>) -> Rewrite<B> {
    let number = rng.between(1, 3) as u32;
    let address = address(number as usize, 0);
    Rewrite::to(match rng.below(12) {
        0 => Set::of_word(3, 0xffff_0000, number << 16),
        1 => Set::of_word(2, 0xffff, 79 + number),
        2 => Set::of_word(3, 0xff00, number << 8),
        3 => Set::of_word(0, u32::MAX, address),
        4 => Set::of_word(1, u32::MAX, address),
        _ => Set::ALL_WILD,
    })
}
