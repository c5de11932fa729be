//! The reference's query for the product, also for the benchmarks.

use mwishovala::{HeaderSet, Query};

/// The host's form of the reference's query.
pub fn to_host(query: &reference::Query) -> Query {
    Query {
        port: query.port,
        hops: query.limit,
        budget: query.budget,
        asked: HeaderSet {
            care: query.care,
            value: query.value,
        },
    }
}
