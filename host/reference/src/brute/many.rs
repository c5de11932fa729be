//! The naive check on many small fabrics, of any implementation's calls.

use std::collections::BTreeSet;

use super::ethernet::facts_of_ethernet;
use super::facts::{facts_of_arrivals, facts_of_runs, facts_of_the_lost, facts_of_trace};
use super::tally::{Fact, Tally};
use super::{arrivals, check_list, check_run, check_verdict, ends, Arrivals, Ends};
use crate::bits::Bits;
use crate::calls::{answer_words, Answer, Query};
use crate::fabric::OpenFlow;
use crate::file::write;
use crate::random::{cases_of, small_query, source::Rng, Small};
use crate::set::Header;

/// Enough for nearly every query of a small fabric.
pub const BUDGET: u32 = 100_000;
/// Of all packets together; few small fabrics have more.
pub const MOST_WAYS: usize = 20_000;

/// A call, given file, bytes lent and query.
pub type Ask<B = Header> = fn(&[u8], usize, &Query<<B as Bits>::Words>) -> Answer;

/// The calls that are checked.
#[derive(Clone, Copy)]
pub struct Checked<B: Bits = Header> {
    pub verdict: Ask<B>,
    pub list: Ask<B>,
    pub run: Ask<B>,
}

impl<B: Bits> Checked<B> {
    /// The bytes that a verdict or a run fills.
    const ROOM: usize = 4 * answer_words::<B>();

    /// Checks as many fabrics of one generator, and that they are worth it.
    pub fn on_many(self, first: u64, number: u64, make: fn(&mut Rng<B>) -> Small<B>) -> Tally {
        let tally = Tally::default();
        cases_of(first, number, |rng: &mut Rng<B>| {
            let made = make(rng);
            let limit = small_query(rng, &made).limit;
            tally.count([Fact::Fabric]);
            match ends(&made.fabric, &made.bits, limit, MOST_WAYS) {
                Some(ends) => tally.count(self.on_one(&made, limit, &ends, rng)),
                None => tally.count([Fact::Skipped]),
            }
        });
        tally.has(200, &[Fact::Found, Fact::Reached, Fact::NoTie]);
        tally.has(500, &[Fact::NoTransfer]);
        tally.has(100, &[Fact::IsolatedWithFinds]);
        tally.has_less_than_once_in(20, Fact::Skipped);
        tally
    }

    /// Checks three queries of a fabric and, of one fabric in three, the runs of
    /// all packets. Gives what was in these.
    fn on_one(
        self,
        made: &Small<B>,
        limit: u32,
        ends: &Ends<B>,
        rng: &mut Rng<B>,
    ) -> BTreeSet<Fact> {
        let file = write(&made.fabric);
        let mut facts = BTreeSet::new();
        for _ in 0..3 {
            let query = Query {
                limit,
                budget: BUDGET,
                ..small_query(rng, made)
            };
            facts.extend(self.on_query(made, &file, &query, ends));
        }
        if rng.once_in(3) {
            self.on_runs(&file, ends);
            facts.extend(facts_of_runs(ends));
        }
        facts
    }

    fn on_query(
        self,
        made: &Small<B>,
        file: &[u8],
        query: &Query<B::Words>,
        ends: &Ends<B>,
    ) -> BTreeSet<Fact> {
        if query.is_of_the_lost() {
            assert_eq!((self.verdict)(file, Self::ROOM, query), Err((8, 0)));
            if made.fabric.openflow == OpenFlow::V1_3 {
                assert_eq!((self.list)(file, 0, query), Err((8, 0)));
                return [Fact::LostRefused].into();
            }
        }
        let arrivals = arrivals(ends, query);
        let listed = match (self.list)(file, most_bytes(&arrivals), query) {
            Err((13, 0)) => return [Fact::Skipped].into(),
            listed => listed.unwrap(),
        };
        check_list(&made.bits, &arrivals, &listed).unwrap();
        let mut facts = facts_of_trace(&made.fabric, query);
        facts.extend(facts_of_ethernet(ends, query));
        if query.is_of_the_lost() {
            facts.extend(facts_of_the_lost(ends, query));
            return facts;
        }
        let judged = (self.verdict)(file, Self::ROOM, query).unwrap();
        check_verdict(&made.fabric, &arrivals, query, &judged).unwrap();
        facts.extend(facts_of_arrivals(ends, query));
        facts
    }

    fn on_runs(self, file: &[u8], ends: &Ends<B>) {
        for (packet, ends) in ends {
            let asked = Query::packet(packet.start.into(), packet.limit, packet.header);
            let words = (self.run)(file, Self::ROOM, &asked).unwrap();
            check_run(packet, ends, &words).unwrap();
        }
    }
}

/// What a list takes that has a find for each way of a pair.
fn most_bytes<B: Bits>(arrivals: &Arrivals<B>) -> usize {
    let words = |way: &Vec<u32>| 1 + way.len() + 2 * B::WORDS;
    4 * arrivals.values().flatten().map(words).sum::<usize>()
}
