//! Where an Ethernet bit decides, for the tally.

use std::collections::{BTreeSet, HashMap};

use super::tally::Fact;
use super::{foreign, Ends};
use crate::bits::Bits;
use crate::calls::Query;
use crate::ways::{Packet, Way};

/// The bits of the words that version 2 adds.
fn ethernet_bits<B: Bits>() -> B {
    !B::NONE.with_old_words(!0)
}

/// What is in these packets' ends, as far as this query finds them.
pub(super) fn facts_of_ethernet<B: Bits>(all: &Ends<B>, query: &Query<B::Words>) -> BTreeSet<Fact> {
    let mut facts = BTreeSet::new();
    let bits = turned_bits(all);
    if bits.is_empty() {
        return facts;
    }
    let by_pair: HashMap<_, _> = all
        .iter()
        .map(|one| ((one.0.start, one.0.header), one))
        .collect();
    for one in all {
        let turned = bits.iter().map(|&bit| (one.0.start, one.0.header ^ bit));
        facts.extend(turned.flat_map(|pair| facts_of_a_turn(one, by_pair[&pair], query)));
        let rewritten = one.1.iter().any(|way| {
            let changed = (way.header ^ one.0.header) & ethernet_bits();
            way.arrives(query) && !changed.is_none()
        });
        facts.extend(rewritten.then_some(Fact::FoundRewritten));
    }
    facts
}

/// A packet and its ends.
type One<'f, B> = (Packet<'f, B>, Vec<Way<B>>);

/// What is so of a packet, and isn't of the other, which has one bit turned.
fn facts_of_a_turn<B: Bits>(
    one: &One<B>,
    other: &One<B>,
    query: &Query<B::Words>,
) -> impl Iterator<Item = Fact> {
    let is_found = |(_, ends): &One<B>| ends.iter().any(|way| way.arrives(query));
    let is_foreign =
        |(packet, _): &One<B>| foreign(packet.fabric, (packet.start, packet.header), query.port);
    let found = match query.is_of_the_lost() {
        true => Fact::LostByEthernet,
        false => Fact::FoundByEthernet,
    };
    let leaks = is_found(one) && is_foreign(one) && !is_foreign(other);
    let is_tied = one.1.len() > 1 && other.1.len() == 1;
    let facts = [
        (is_found(one) && !is_found(other)).then_some(found),
        leaks.then_some(Fact::ForeignByEthernet),
        is_tied.then_some(Fact::TiedByEthernet),
    ];
    facts.into_iter().flatten()
}

/// The Ethernet bits that these packets' headers differ in, each alone.
fn turned_bits<B: Bits>(all: &Ends<B>) -> Vec<B> {
    let headers = all.iter().map(|(packet, _)| packet.header);
    let mut left = headers.fold(B::NONE, |bits, header| bits | header) & ethernet_bits();
    let mut turned = Vec::new();
    while !left.is_none() {
        turned.push(left.first());
        left = left ^ left.first();
    }
    turned
}
