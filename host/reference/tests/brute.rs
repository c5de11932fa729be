//! Every header over a few bits, forwarded one by one under every choice,
//! against the calls of both versions.

mod common;

use common::answer;
use reference::brute::{Checked, Fact};
use reference::calls::{list, run, verdict};
use reference::random::{crowded, dead_ends, leaky_ring, small, small_ring, ties, tiny};
use reference::{Bits, Header, Wide};

const fn checked<B: Bits>() -> Checked<B> {
    Checked {
        verdict: |file, lent, query| answer(verdict, file, lent, query),
        list: |file, lent, query| answer(list, file, lent, query),
        run: |file, lent, query| answer(run, file, lent, query),
    }
}

const CHECKED: Checked = checked::<Header>();
const WIDE: Checked<Wide> = checked::<Wide>();

#[test]
fn tiny_fabrics() {
    let tally = CHECKED.on_many(200_000, 4000, tiny);
    tally.has(200, &[Fact::LostRefused, Fact::LostAtOnce]);
}

#[test]
fn small_fabrics() {
    let tally = CHECKED.on_many(300_000, 4000, small);
    tally.has(10, &Fact::OF_TIES);
    tally.has(20, &Fact::OF_TRANSFERS);
    tally.has(20, &Fact::OF_MISSES);
}

#[test]
fn fabrics_of_ties() {
    let tally = CHECKED.on_many(400_000, 5000, ties);
    tally.has(40, &Fact::OF_TIES);
    tally.has(50, &Fact::OF_TRANSFERS);
    tally.has(40, &Fact::OF_MISSES);
}

#[test]
fn fabrics_with_dead_ends() {
    let tally = CHECKED.on_many(500_000, 2500, dead_ends);
    tally.has(10, &Fact::OF_TIES);
    tally.has(20, &Fact::OF_TRANSFERS);
    tally.has(20, &Fact::OF_MISSES);
}

#[test]
fn small_rings() {
    let tally = CHECKED.on_many(550_000, 3000, small_ring);
    tally.has(50, &Fact::OF_TIES);
    tally.has(100, &Fact::OF_TRANSFERS);
    tally.has(1000, &[Fact::FoundFar]);
}

#[test]
fn leaky_rings() {
    let tally = CHECKED.on_many(570_000, 3000, leaky_ring);
    tally.has(40, &Fact::OF_MISSES);
    tally.has(300, &[Fact::LostFar]);
}

#[test]
fn crowded_in_ports() {
    let tally = CHECKED.on_many(560_000, 2000, crowded);
    tally.has(10, &Fact::OF_TIES);
    tally.has(30, &Fact::OF_TRANSFERS);
    tally.has(10, &Fact::OF_MISSES);
}

#[test]
fn wide_tiny_fabrics() {
    let tally = WIDE.on_many(1_200_000, 4000, tiny);
    tally.has(20, &Fact::OF_ETHERNET);
    tally.has(200, &[Fact::LostByEthernet, Fact::LostRefused]);
}

#[test]
fn wide_small_fabrics() {
    let tally = WIDE.on_many(1_300_000, 3000, small);
    tally.has(10, &Fact::OF_TIES);
    tally.has(20, &Fact::OF_TRANSFERS);
    tally.has(20, &Fact::OF_MISSES);
    tally.has(200, &Fact::OF_ETHERNET);
    tally.has(200, &[Fact::LostByEthernet]);
}

#[test]
fn wide_fabrics_of_ties() {
    let tally = WIDE.on_many(1_400_000, 4000, ties);
    tally.has(30, &Fact::OF_TIES);
    tally.has(40, &Fact::OF_TRANSFERS);
    tally.has(40, &Fact::OF_MISSES);
    tally.has(300, &Fact::OF_ETHERNET);
    tally.has(300, &[Fact::LostByEthernet]);
}

#[test]
fn wide_fabrics_with_dead_ends() {
    let tally = WIDE.on_many(1_500_000, 2000, dead_ends);
    tally.has(5, &Fact::OF_TIES);
    tally.has(10, &Fact::OF_TRANSFERS);
    tally.has(10, &Fact::OF_MISSES);
    tally.has(100, &Fact::OF_ETHERNET);
    tally.has(100, &[Fact::LostByEthernet]);
}

#[test]
fn wide_small_rings() {
    let tally = WIDE.on_many(1_550_000, 2500, small_ring);
    tally.has(40, &Fact::OF_TIES);
    tally.has(50, &Fact::OF_TRANSFERS);
    tally.has(800, &[Fact::FoundFar]);
    tally.has(300, &Fact::OF_ETHERNET);
}

#[test]
fn wide_leaky_rings() {
    let tally = WIDE.on_many(1_570_000, 2500, leaky_ring);
    tally.has(40, &Fact::OF_MISSES);
    tally.has(150, &[Fact::LostFar]);
    tally.has(300, &Fact::OF_ETHERNET);
    tally.has(300, &[Fact::LostByEthernet]);
}

#[test]
fn wide_crowded_in_ports() {
    let tally = WIDE.on_many(1_560_000, 2000, crowded);
    tally.has(10, &Fact::OF_TIES);
    tally.has(20, &Fact::OF_TRANSFERS);
    tally.has(5, &Fact::OF_MISSES);
    tally.has(100, &Fact::OF_ETHERNET);
    tally.has(200, &[Fact::LostByEthernet]);
}
