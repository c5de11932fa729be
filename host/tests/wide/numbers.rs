//! The reference's query for the product, in version 2; also for the benchmarks.

use mwishovala::QUERY_NUMBERS_V2;
use reference::wide::Query;

/// Words 1 to 19 of the program's query.
pub fn numbers(query: &Query) -> [u32; QUERY_NUMBERS_V2] {
    let mut numbers = [0; QUERY_NUMBERS_V2];
    numbers[..3].copy_from_slice(&[query.port, query.limit, query.budget]);
    numbers[3..11].copy_from_slice(&query.care);
    numbers[11..].copy_from_slice(&query.value);
    numbers
}
