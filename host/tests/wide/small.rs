//! Verdicts, lists and runs judged without any trace: every header over a few bits,
//! of all eight words, is forwarded, one by one and under every choice among equals.

use reference::brute::{Checked, Fact};
use reference::random::{crowded, dead_ends, leaky_ring, small, small_ring, ties, tiny};
use reference::Wide;

use crate::calls::{product, LIST, RUN, VERDICT};

const CHECKED: Checked<Wide> = Checked {
    verdict: |file, lent, query| product(VERDICT, file, lent, query),
    list: |file, lent, query| product(LIST, file, lent, query),
    run: |file, lent, query| product(RUN, file, lent, query),
};

#[test]
fn tiny_fabrics() {
    let tally = CHECKED.on_many(14_000_000, 5000, tiny);
    tally.has(20, &Fact::OF_ETHERNET);
    tally.has(250, &[Fact::LostByEthernet, Fact::LostRefused]);
}

#[test]
fn small_fabrics() {
    let tally = CHECKED.on_many(14_100_000, 4000, small);
    tally.has(10, &Fact::OF_TIES);
    tally.has(20, &Fact::OF_TRANSFERS);
    tally.has(20, &Fact::OF_MISSES);
    tally.has(300, &Fact::OF_ETHERNET);
    tally.has(300, &[Fact::LostByEthernet]);
}

#[test]
fn fabrics_of_ties() {
    let tally = CHECKED.on_many(14_200_000, 5000, ties);
    tally.has(30, &Fact::OF_TIES);
    tally.has(50, &Fact::OF_TRANSFERS);
    tally.has(50, &Fact::OF_MISSES);
    tally.has(400, &Fact::OF_ETHERNET);
    tally.has(400, &[Fact::LostByEthernet]);
}

#[test]
fn fabrics_with_dead_ends() {
    let tally = CHECKED.on_many(14_300_000, 3000, dead_ends);
    tally.has(5, &Fact::OF_TIES);
    tally.has(15, &Fact::OF_TRANSFERS);
    tally.has(15, &Fact::OF_MISSES);
    tally.has(200, &Fact::OF_ETHERNET);
    tally.has(200, &[Fact::LostByEthernet]);
}

#[test]
fn small_rings() {
    let tally = CHECKED.on_many(14_400_000, 3000, small_ring);
    tally.has(40, &Fact::OF_TIES);
    tally.has(60, &Fact::OF_TRANSFERS);
    tally.has(1000, &[Fact::FoundFar]);
    tally.has(400, &Fact::OF_ETHERNET);
}

#[test]
fn leaky_rings() {
    let tally = CHECKED.on_many(14_600_000, 3000, leaky_ring);
    tally.has(40, &Fact::OF_MISSES);
    tally.has(200, &[Fact::LostFar]);
    tally.has(400, &Fact::OF_ETHERNET);
    tally.has(400, &[Fact::LostByEthernet]);
}

#[test]
fn crowded_in_ports() {
    let tally = CHECKED.on_many(14_500_000, 2000, crowded);
    tally.has(10, &Fact::OF_TIES);
    tally.has(20, &Fact::OF_TRANSFERS);
    tally.has(5, &Fact::OF_MISSES);
    tally.has(100, &Fact::OF_ETHERNET);
    tally.has(200, &[Fact::LostByEthernet]);
}
