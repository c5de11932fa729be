//! Random queries of a fabric.

use super::parts::{set_over, spread_bits};
use super::source::Rng;
use super::Small;
use crate::bits::Bits;
use crate::calls::Query;
use crate::fabric::Fabric;
use crate::set::Set;
use crate::transfer::Transfer;

/// A verdict's or list's query, in range or not. The budget has mostly less
/// than `most` units.
pub fn query<B: Bits>(rng: &mut Rng<B>, fabric: &Fabric<B>, most: u32) -> Query<B::Words> {
    let asked = match rng.below(4) {
        0 => Set::ALL_WILD,
        1 => admitted(rng, fabric),
        2 => {
            let bits = spread_bits(rng, 6);
            set_over(rng, &bits, 4)
        }
        _ => {
            let all = 0..32 * B::WORDS as u32;
            let bits: Vec<u32> = all.filter(|&bit| !B::ZERO_BITS.has(bit)).collect();
            set_over(rng, &bits, 3)
        }
    };
    let stray = match rng.once_in(30) {
        true => B::bit(rng.below(32 * B::WORDS) as u32),
        false => B::NONE,
    };
    let query = Query::wild(port(rng, fabric), limit(rng), budget(rng, most));
    query.about(Set {
        care: asked.care | zero_bit(rng),
        value: asked.value ^ stray,
    })
}

/// Mostly none; in version 2 at times one of the bits that must be zero.
fn zero_bit<B: Bits>(rng: &mut Rng<B>) -> B {
    if B::ZERO_BITS.is_none() || !rng.once_in(30) {
        return B::NONE;
    }
    rng.one_of([0, 3, 7].map(B::bit))
}

/// The same for a list: one in six is of the packets that are lost.
pub fn list_query<B: Bits>(rng: &mut Rng<B>, fabric: &Fabric<B>, most: u32) -> Query<B::Words> {
    let asked = query(rng, fabric, most);
    match rng.once_in(6) {
        true => asked.of_the_lost(),
        false => asked,
    }
}

/// A query in range that cares for the fabric's few bits alone, with all of
/// the budget. One in six is of the packets that are lost, as are all if there is
/// no edge.
pub fn small_query<B: Bits>(rng: &mut Rng<B>, small: &Small<B>) -> Query<B::Words> {
    let asked = set_over(rng, &small.bits, 2);
    let limit = match rng.once_in(3) {
        true => 16,
        false => rng.between(1, 6) as u32,
    };
    let query = Query::wild(target(rng, &small.fabric), limit, u32::MAX).about(asked);
    match rng.once_in(6) {
        true => query.of_the_lost(),
        false => query,
    }
}

/// An edge port, mostly one that an entry sends to; 0 if there is none.
fn target<B: Bits>(rng: &mut Rng<B>, fabric: &Fabric<B>) -> u32 {
    let edges: Vec<u32> = fabric.edges.iter().map(|edge| edge.port.into()).collect();
    let mut sent_to: Vec<u32> = fabric
        .entries
        .iter()
        .map(|entry| entry.out_port.into())
        .collect();
    sent_to.retain(|port| edges.contains(port));
    let from = if sent_to.is_empty() || rng.once_in(8) {
        &edges
    } else {
        &sent_to
    };
    *rng.pick(from).unwrap_or(&0)
}

/// A run's query, in range or not: the header is close to what the fabric's
/// matches hold, some of them once the addresses are swapped.
pub fn packet<B: Bits>(rng: &mut Rng<B>, fabric: &Fabric<B>) -> Query<B::Words> {
    let mut header = if rng.once_in(3) { rng.bits() } else { B::NONE };
    for _ in 0..rng.between(0, 3) {
        if let Some(entry) = rng.pick(&fabric.entries) {
            let set = entry.matching;
            header = header & !set.care | set.value;
        }
        header = rng.one_of([Transfer::None, Transfer::Swap]).apply(header);
    }
    let mut asked = Set::only(header);
    if rng.once_in(30) {
        let place = rng.below(32) as u32;
        asked.care = asked.care ^ B::bit(B::number(rng.below(B::WORDS), place));
    }
    let query = Query::wild(port(rng, fabric), limit(rng), rng.draw() as u32);
    query.about(asked)
}

fn admitted<B: Bits>(rng: &mut Rng<B>, fabric: &Fabric<B>) -> Set<B> {
    let edge = rng.pick(&fabric.edges);
    edge.map_or(Set::ALL_WILD, |edge| edge.admitted)
}

fn port<B: Bits>(rng: &mut Rng<B>, fabric: &Fabric<B>) -> u32 {
    match rng.below(30) {
        0 => rng.draw() as u32,
        1 => rng.below(4097) as u32,
        2 => 0,
        3..=6 => rng.pick(&fabric.edges).map_or(0, |edge| edge.port.into()),
        _ => target(rng, fabric),
    }
}

fn limit<B: Bits>(rng: &mut Rng<B>) -> u32 {
    match rng.below(30) {
        0 => rng.one_of([0, 17, 18, 257, u32::MAX]),
        1..=10 => 16,
        _ => rng.between(1, 16) as u32,
    }
}

fn budget<B: Bits>(rng: &mut Rng<B>, most: u32) -> u32 {
    match rng.below(6) {
        0 => rng.below(4) as u32,
        1 | 2 => rng.below(most as usize / 100 + 1) as u32,
        _ => rng.below(most as usize + 1) as u32,
    }
}
