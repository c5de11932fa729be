//! Lists of the packets that are lost.

use super::{campus, deep_ring, Benchmark};

/// Those of the campus, where each edge loses at once what it has no route for; and
/// of the deep ring, whose last switch has none for a lap that no packet gets to, so
/// that all its units lead to no find.
pub fn lost_packets() -> [Benchmark; 2] {
    let of = |name, benchmark: Benchmark| Benchmark {
        name,
        query: benchmark.query.of_the_lost(),
        ..benchmark
    };
    [
        of("lost on campus", campus()),
        of("lost on deep ring", deep_ring()),
    ]
}
