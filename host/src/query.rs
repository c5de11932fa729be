//! What is asked of a fabric.

use crate::header::{Header, HeaderSet};
use crate::limits::MOST_HOPS;
use crate::version::Version;

/// A query of document 01, but for its first word, which names the call.
#[derive(Clone, Copy, Debug, PartialEq, Eq)]
pub struct Query<const N: usize = 4> {
    /// A verdict's target, or a list's, by its [`Target::number`]; a run's start.
    pub port: u32,
    /// The hop limit, 1 to 16.
    pub hops: u32,
    /// The most units that a verdict or list may make; unused by a run.
    pub budget: u32,
    /// The exit headers asked about; for a run, its header alone.
    pub asked: HeaderSet<N>,
}

/// What a list is about.
#[derive(Clone, Copy, Debug, PartialEq, Eq, Hash)]
#[non_exhaustive]
pub enum Target {
    /// The packets that get out at this port, if it is an edge port.
    Port(u32),
    /// The packets that are lost: they come to an in-port where no entry takes
    /// them. A list alone has this target, of a fabric of OpenFlow 1.0.
    Lost,
}

/// What a query has as its port for the packets that are lost.
const LOST: u32 = 0;

impl Target {
    /// The target that this is the number of.
    pub fn numbered(number: u32) -> Target {
        match number {
            LOST => Target::Lost,
            port => Target::Port(port),
        }
    }

    /// A query's port.
    pub fn number(self) -> u32 {
        match self {
            Target::Port(port) => port,
            Target::Lost => LOST,
        }
    }
}

/// A budget that real fabrics stay within, and that a person waits for: half a
/// minute if all of it is used.
pub const USUAL_BUDGET: u32 = 1_000_000_000;

/// The numbers of a query of version 1: its words 1 to 11.
pub const QUERY_NUMBERS: usize = Version::V1.query_numbers();
/// The numbers of a query of version 2: its words 1 to 19.
pub const QUERY_NUMBERS_V2: usize = Version::V2.query_numbers();

impl Query {
    /// Whether any packet, whatever its header, gets out at this port within
    /// 16 hops. Of a fabric of version 2, [`resized`](Query::resized) asks it.
    pub fn all_wild(target: u32) -> Query {
        Query::whole(target)
    }

    /// Which packets, whatever their headers, are lost after fewer than 16 hops:
    /// for a list of a fabric of OpenFlow 1.0.
    pub fn lost() -> Query {
        Query::whole(LOST)
    }

    /// As the calls of version 1 take it.
    pub fn numbers(&self) -> [u32; QUERY_NUMBERS] {
        in_order(self.words())
    }
}

impl Query<8> {
    /// As the calls of version 2 take it.
    pub fn numbers(&self) -> [u32; QUERY_NUMBERS_V2] {
        in_order(self.words())
    }
}

/// So many numbers as there are.
fn in_order<const COUNT: usize>(mut words: impl Iterator<Item = u32>) -> [u32; COUNT] {
    std::array::from_fn(|_| words.next().unwrap_or_default())
}

impl<const N: usize> Query<N> {
    /// Whatever the header, and all hops.
    pub(crate) fn whole(target: u32) -> Query<N> {
        Query {
            port: target,
            hops: MOST_HOPS,
            budget: USUAL_BUDGET,
            asked: HeaderSet::ALL_WILD,
        }
    }

    /// The same of headers of another number of words, if it can be asked of them:
    /// not if its set cares for a word that they don't have.
    pub fn resized<const M: usize>(&self) -> Option<Query<M>> {
        Some(Query {
            port: self.port,
            hops: self.hops,
            budget: self.budget,
            asked: self.asked.resized()?,
        })
    }

    /// What a list that asks this is about.
    pub fn target(&self) -> Target {
        Target::numbered(self.port)
    }

    /// Where a packet with this header goes from this port within 16 hops.
    pub fn packet(start: u32, header: Header<N>) -> Query<N> {
        Query {
            budget: 0,
            asked: HeaderSet::only(header),
            ..Query::whole(start)
        }
    }

    /// Words 1 and on of the query: port, hops and budget, care, value.
    pub(crate) fn words(&self) -> impl Iterator<Item = u32> {
        let numbers = [self.port, self.hops, self.budget].into_iter();
        numbers.chain(self.asked.care).chain(self.asked.value)
    }
}
