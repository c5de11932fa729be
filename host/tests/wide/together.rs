//! The benchmark fabrics, the deepest descent on little stack, and calls at the same
//! time.

use std::thread;

use mwishovala::limits;
use reference::file::write;
use reference::random::{any, deepest_in_version_2, in_both_versions, wide_cases, Benchmark};
use reference::wide::Query;
use reference::{Transfer, Wide};

use crate::calls::{agreed, Call, CALLS, LIST, ROOM, VERDICT};

/// Room for every list but the longest.
const LIST_ROOM: usize = 1 << 20;

/// At their counts and one below, and every edge of them.
#[test]
fn benchmark_fabrics() {
    for Benchmark { fabric, query, .. } in in_both_versions().into_iter().map(|both| both.wide) {
        let file = write(&fabric);
        let units = agreed(VERDICT, &file, ROOM, &query).expect("isolated")[1];
        for budget in [units - 1, units] {
            let asked = Query { budget, ..query };
            let judged = agreed(VERDICT, &file, ROOM, &asked);
            assert_eq!(judged.is_ok(), budget == units);
            let _ = agreed(LIST, &file, LIST_ROOM, &asked);
        }
        for edge in &fabric.edges {
            let asked = Query {
                port: edge.port.into(),
                budget: 100_000,
                ..query
            };
            let _ = agreed(VERDICT, &file, ROOM, &asked);
        }
    }
}

/// 16 hops of 62 or 63 beaters, all met. All entries copy, which adds no units: both
/// addresses are rewritten.
#[test]
fn the_stack_is_enough() {
    let code_of = |call: Call| {
        let Benchmark {
            mut fabric, query, ..
        } = deepest_in_version_2().wide;
        for entry in &mut fabric.entries {
            entry.transfer = Transfer::Copy;
        }
        let file = write::<Wide>(&fabric);
        let deepest = move || call.product_on(&file, &mut vec![0; LIST_ROOM], &query);
        let thread = thread::Builder::new().stack_size(limits::STACK_BYTES);
        thread.spawn(deepest).unwrap().join().unwrap()
    };
    assert_eq!(code_of(VERDICT), 28 * 256);
    // Finds of 6, 11 and 16 hops.
    assert_eq!(code_of(LIST), (3 * 17 + 6 + 11 + 16) * 256);
}

/// The library keeps nothing between calls: threads don't disturb each other.
#[test]
fn calls_at_the_same_time() {
    thread::scope(|scope| {
        for number in 0..4 {
            scope.spawn(move || {
                wide_cases(13_900_000 + 1000 * number, 200, |rng| {
                    let fabric = any(rng);
                    let file = write(&fabric);
                    for call in CALLS {
                        let asked = (call.query)(rng, &fabric, 10_000);
                        let _ = agreed(call, &file, 10_000, &asked);
                    }
                });
            });
        }
    });
}
