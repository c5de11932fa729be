//! What was in a fabric and what was asked of it, for the tally.

use std::collections::BTreeSet;

use super::tally::Fact;
use super::{foreign, Ends};
use crate::bits::Bits;
use crate::calls::Query;
use crate::fabric::{Entry, Fabric};
use crate::ternary::{self, Ternary};
use crate::transfer::Transfer;
use crate::ways::{holds, takers, Packet, Way, DROPPED, LOST, TIED, TRAVELLING};

/// Of a trace with more, only so many are looked at.
const MOST_EVENTS: usize = 1000;

fn when(happened: bool, fact: Fact) -> Option<Fact> {
    happened.then_some(fact)
}

/// What is in the runs of these packets.
pub(super) fn facts_of_runs<B: Bits>(all: &Ends<B>) -> BTreeSet<Fact> {
    let mut facts = BTreeSet::new();
    for (packet, ends) in all {
        let Some(run) = packet.run_by(ends) else {
            continue;
        };
        let takers = takers(packet.fabric, run.port, run.header);
        if run.fate == Some(TIED) {
            facts.extend(facts_of_tie(packet.fabric, &run, &takers));
        }
        let missed = is_missed(packet.fabric, &run);
        let last = transfers_on(packet, &run.entries).pop();
        facts.extend(last.and_then(|(hop, _)| match run.fate {
            Some(TIED) => Some(Fact::TiedAfterATransfer),
            Some(DROPPED) if hop + 1 == run.entries.len() && !missed => {
                Some(Fact::DroppedByATransfer)
            }
            _ => None,
        }));
        facts.extend(match (run.fate, takers.len()) {
            (Some(TRAVELLING), 0) => Some(Fact::TravellingToAMiss),
            (Some(TRAVELLING), 2..) => Some(Fact::TravellingToATie),
            (Some(DROPPED), _) if missed => Some(match run.entries.is_empty() {
                true => Fact::MissedAtTheStart,
                false => Fact::MissedBehindALink,
            }),
            _ => None,
        });
        if !facts.contains(&Fact::PastEqualsBelow) {
            let mut hops = 0..run.entries.len();
            let past = hops.any(|hop| equals_below(packet, &run.entries[..=hop]));
            facts.extend(when(past, Fact::PastEqualsBelow));
        }
    }
    let no_tie = all.iter().all(|(_, ends)| ends.len() == 1);
    facts.extend(when(no_tie, Fact::NoTie));
    facts
}

/// Whether a packet is dropped and no entry did it.
fn is_missed<B>(fabric: &Fabric<B>, run: &Way<B>) -> bool {
    let drops = |&last: &u32| fabric.entries[last as usize].out_port == 0;
    run.fate == Some(DROPPED) && !run.entries.last().is_some_and(drops)
}

fn facts_of_tie<B: Bits>(
    fabric: &Fabric<B>,
    run: &Way<B>,
    takers: &[u32],
) -> impl Iterator<Item = Fact> {
    let entries = takers.iter().map(|&taker| &fabric.entries[taker as usize]);
    let mut done = entries.map(|entry| (entry.out_port, entry.transfer, entry.rewrite));
    let first = done.next();
    let place = match run.entries.is_empty() {
        true => Fact::TiedAtTheStart,
        false => Fact::TiedBehindALink,
    };
    let by_three = when(takers.len() >= 3, Fact::TiedByThree);
    let by_alike = when(done.all(|other| Some(other) == first), Fact::TiedByAlike);
    [Some(place), by_three, by_alike].into_iter().flatten()
}

/// What is in the arrivals of these packets.
pub(super) fn facts_of_arrivals<B: Bits>(all: &Ends<B>, query: &Query<B::Words>) -> BTreeSet<Fact> {
    let mut facts = BTreeSet::new();
    let mut leaks_by_the_earlier = false;
    for (packet, ends) in all {
        let arriving = || ends.iter().filter(|way| way.arrives(query));
        let number = arriving().count();
        if number == 0 {
            continue;
        }
        let leaks = foreign(packet.fabric, (packet.start, packet.header), query.port);
        leaks_by_the_earlier |= leaks && ends[0].arrives(query);
        let by_choice = number < ends.len();
        let far = arriving().any(|way| way.entries.len() >= 3);
        facts.insert(Fact::Found);
        facts.extend(when(far, Fact::FoundFar));
        facts.extend(when(number > 1, Fact::FoundTwice));
        facts.extend(when(leaks, Fact::Reached));
        facts.extend(when(by_choice, Fact::ArrivesByChoice));
        facts.extend(when(by_choice && leaks, Fact::LeaksByChoice));
        for way in arriving() {
            facts.extend(facts_of_transfers(packet, &way.entries));
        }
    }
    let reached = facts.contains(&Fact::Reached);
    let isolated_with_finds = facts.contains(&Fact::Found) && !reached;
    facts.extend(when(isolated_with_finds, Fact::IsolatedWithFinds));
    facts.extend(when(
        reached && !leaks_by_the_earlier,
        Fact::LeaksByTheLater,
    ));
    facts
}

/// What is in a list of those of these packets that are lost.
pub(super) fn facts_of_the_lost<B: Bits>(all: &Ends<B>, query: &Query<B::Words>) -> BTreeSet<Fact> {
    let mut facts = BTreeSet::new();
    for (packet, ends) in all {
        let found = || ends.iter().filter(|way| way.arrives(query));
        let lost_outside = |way: &Way<B>| way.fate == Some(LOST) && !way.arrives(query);
        let started_inside = holds(&query.asked(), packet.header);
        let by_choice = ends.iter().any(|way| way.fate != Some(LOST));
        for hops in found().map(|way| way.entries.len() as u32) {
            let at_the_limit = hops > 0 && hops + 1 == query.limit;
            facts.extend(when(hops == 0, Fact::LostAtOnce));
            facts.extend(when(hops >= 2, Fact::LostFar));
            facts.extend(when(at_the_limit, Fact::LostAtTheLimit));
            facts.extend(when(by_choice, Fact::LostByChoice));
            facts.extend(when(!started_inside, Fact::LostWithinTheAsked));
        }
        let outside = started_inside && ends.iter().any(lost_outside);
        facts.extend(when(found().count() > 1, Fact::LostTwice));
        facts.extend(when(outside, Fact::LostOutsideTheAsked));
    }
    facts
}

/// What the copies and swaps are by which a packet is found.
fn facts_of_transfers<B: Bits>(packet: &Packet<B>, entries: &[u32]) -> BTreeSet<Fact> {
    let mut facts = BTreeSet::new();
    for (hop, entry) in transfers_on(packet, entries) {
        let swaps = entry.transfer == Transfer::Swap;
        let rewritten = swaps && addresses(entry.rewrite.mask) != (0, 0);
        facts.extend(when(!swaps, Fact::FoundByACopy));
        facts.extend(when(swaps, Fact::FoundByASwap));
        facts.extend(when(rewritten, Fact::FoundByASwapRewritten));
        facts.extend(when(hop > 0, Fact::FoundByATransferFar));
    }
    facts
}

/// Words 0 and 1.
fn addresses<B: Bits>(bits: B) -> (u32, u32) {
    let words = bits.to_words();
    (words.as_ref()[0], words.as_ref()[1])
}

/// The entries on this way that copy or swap and so change the header, each with
/// the number of hops before it.
fn transfers_on<'f, B: Bits>(
    packet: &Packet<'f, B>,
    entries: &[u32],
) -> Vec<(usize, &'f Entry<B>)> {
    let changes = |hop: usize| {
        let before = packet.follow(&entries[..hop]);
        let addresses = before.map(|way| addresses(way.header));
        addresses.is_some_and(|(src, dst)| src != dst)
    };
    let taken = entries
        .iter()
        .map(|&number| &packet.fabric.entries[number as usize]);
    let transfers = taken
        .enumerate()
        .filter(|(hop, entry)| entry.transfer != Transfer::None && changes(*hop));
    transfers.collect()
}

/// What is in the fabric itself, and in the back-trace for this query, which the
/// slow one tells.
pub(super) fn facts_of_trace<B: Bits>(
    fabric: &Fabric<B>,
    query: &Query<B::Words>,
) -> BTreeSet<Fact> {
    let mut facts = BTreeSet::new();
    let undo = |entry: &Entry<B>, wanted: &Ternary| {
        facts.extend(
            ternary::joins_agree(entry, wanted).map(|agree| match agree {
                true => Fact::JoinsThatAgree,
                false => Fact::JoinsThatDisagree,
            }),
        );
        ternary::undo(entry, wanted)
    };
    ternary::events_by(undo, fabric, query, MOST_EVENTS);
    let mut transfers = fabric.entries.iter().map(|entry| entry.transfer);
    let none = transfers.all(|transfer| transfer == Transfer::None);
    facts.extend(when(none, Fact::NoTransfer));
    facts
}

/// Whether two equals match below the last of these entries, where it takes
/// the packet.
fn equals_below<B: Bits>(packet: &Packet<B>, entries: &[u32]) -> bool {
    let Some((&taker, before)) = entries.split_last() else {
        return false;
    };
    let Some(way) = packet.follow(before) else {
        return false;
    };
    let all = &packet.fabric.entries;
    let taker = &all[taker as usize];
    let mut below: Vec<u16> = all
        .iter()
        .filter(|entry| entry.in_port == way.port && holds(&entry.matching, way.header))
        .map(|entry| entry.priority)
        .filter(|&priority| priority < taker.priority)
        .collect();
    below.sort();
    below.windows(2).any(|two| two[0] == two[1])
}
