//! What several tests need.

#![allow(dead_code)]

use std::cell::Cell;

use reference::brute::{ends, Ends, BUDGET, MOST_WAYS};
use reference::calls::{answer_words, list, read_answer, run, Answer, Query};
use reference::fabric::Fabric;
use reference::file::write;
use reference::random::source::Rng;
use reference::random::{cases_of, small, small_query, ties, Small};
use reference::set::Set;
use reference::{Bits, Header, Words};

/// One of the three calls.
pub type Call<W = [u32; 4]> = fn(&[u8], &mut [u8], &Query<W>) -> u64;

/// Makes a call and gives what it says. Fails if a byte changed that has to
/// stay.
pub fn answer<W: Words>(call: Call<W>, file: &[u8], lent: usize, query: &Query<W>) -> Answer {
    let untouched: Vec<u8> = (0..lent).map(|i| (i * 7 + 3) as u8).collect();
    let mut area = untouched.clone();
    let code = call(file, &mut area, query);
    let answer = read_answer(code, &area);
    let written = answer.as_ref().map_or(0, |words| 4 * words.len());
    assert_eq!(area[written..], untouched[written..], "bytes that stay");
    answer
}

/// A verdict or list of target 2, all wild.
pub fn asked<B: Bits>(call: Call<B::Words>, fabric: &Fabric<B>, limit: u32, budget: u32) -> Answer {
    answer(call, &write(fabric), 4000, &Query::wild(2, limit, budget))
}

/// A list of the packets that are lost with a header in this set.
pub fn lost_of<B: Bits>(fabric: &Fabric<B>, limit: u32, budget: u32, asked: Set<B>) -> Answer {
    let query: Query<B::Words> = Query::wild(0, limit, budget);
    let query = query.about(asked);
    answer(list, &write(fabric), 40_000, &query)
}

/// A run from port 1.
pub fn run_of<B: Bits>(fabric: &Fabric<B>, limit: u32, header: B::Words) -> Vec<u32> {
    let query: Query<B::Words> = Query::packet(1, limit, B::from_words(header));
    answer(run, &write(fabric), 4 * answer_words::<B>(), &query).unwrap()
}

/// A verdict's or a run's words: these, and zeros.
pub fn filled(words: &[u32]) -> Vec<u32> {
    filled_as::<Header>(words)
}

/// The same of either version.
pub fn filled_as<B: Bits>(words: &[u32]) -> Vec<u32> {
    let mut words = words.to_vec();
    words.resize(answer_words::<B>(), 0);
    words
}

/// Small fabrics, each with a query and all ends, for so many seeds from the
/// first on.
pub fn on_cases<B: Bits>(
    seeds: (u64, u64),
    check: impl Fn(&Small<B>, &Query<B::Words>, &Ends<B>, &mut Rng<B>),
) {
    cases_of(seeds.0, seeds.1, |rng| {
        let made = if rng.once_in(2) {
            small(rng)
        } else {
            ties(rng)
        };
        let query = Query {
            budget: BUDGET,
            ..small_query(rng, &made)
        };
        if let Some(ends) = ends(&made.fabric, &made.bits, query.limit, MOST_WAYS) {
            check(&made, &query, &ends, rng);
        }
    });
}

/// Counts how often something was seen.
#[derive(Debug, Default)]
pub struct Seen(Cell<u32>);

impl Seen {
    pub fn count(&self, happened: bool) {
        self.0.set(self.0.get() + u32::from(happened));
    }

    /// Fails if it was seen too little, unless a single seed was asked for.
    pub fn at_least(&self, floor: u32) {
        let seen = self.0.get();
        assert!(seen >= floor || std::env::var("SEED").is_ok(), "{seen}");
    }
    /// Fails if it was seen too much.
    pub fn at_most(&self, ceiling: u32) {
        let seen = self.0.get();
        assert!(seen <= ceiling, "{seen}");
    }
}
