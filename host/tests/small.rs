//! Verdicts, lists and runs of the static library, judged without any trace:
//! every header over a few bits is forwarded, one by one and under every choice
//! among equals.

mod common;

use common::{product_alone, Call, LIST, RUN, VERDICT};
use reference::brute::{Checked, Fact};
use reference::calls::{read_answer, Answer};
use reference::random::{crowded, dead_ends, leaky_ring, small, small_ring, ties, tiny};
use reference::Query;

const CHECKED: Checked = Checked {
    verdict: |file, lent, query| product(VERDICT, file, lent, query),
    list: |file, lent, query| product(LIST, file, lent, query),
    run: |file, lent, query| product(RUN, file, lent, query),
};

fn product(call: Call, file: &[u8], lent: usize, query: &Query) -> Answer {
    let (code, area) = product_alone(call, file, lent, query);
    read_answer(code, &area)
}

#[test]
fn tiny_fabrics() {
    let tally = CHECKED.on_many(5_000_000, 6000, tiny);
    tally.has(300, &[Fact::LostRefused, Fact::LostAtOnce]);
}

#[test]
fn small_fabrics() {
    let tally = CHECKED.on_many(5_100_000, 6000, small);
    tally.has(10, &Fact::OF_TIES);
    tally.has(30, &Fact::OF_TRANSFERS);
    tally.has(30, &Fact::OF_MISSES);
}

#[test]
fn fabrics_of_ties() {
    let tally = CHECKED.on_many(5_200_000, 8000, ties);
    tally.has(60, &Fact::OF_TIES);
    tally.has(80, &Fact::OF_TRANSFERS);
    tally.has(60, &Fact::OF_MISSES);
}

#[test]
fn fabrics_with_dead_ends() {
    let tally = CHECKED.on_many(5_300_000, 5000, dead_ends);
    tally.has(10, &Fact::OF_TIES);
    tally.has(30, &Fact::OF_TRANSFERS);
    tally.has(30, &Fact::OF_MISSES);
}

#[test]
fn small_rings() {
    let tally = CHECKED.on_many(5_400_000, 5000, small_ring);
    tally.has(80, &Fact::OF_TIES);
    tally.has(150, &Fact::OF_TRANSFERS);
    tally.has(1500, &[Fact::FoundFar]);
}

#[test]
fn leaky_rings() {
    let tally = CHECKED.on_many(5_600_000, 5000, leaky_ring);
    tally.has(60, &Fact::OF_MISSES);
    tally.has(500, &[Fact::LostFar]);
}

#[test]
fn crowded_in_ports() {
    let tally = CHECKED.on_many(5_500_000, 2000, crowded);
    tally.has(10, &Fact::OF_TIES);
    tally.has(30, &Fact::OF_TRANSFERS);
    tally.has(10, &Fact::OF_MISSES);
}
