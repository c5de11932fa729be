//! Equal priorities (document 02's 2.3) in the static library: the reference's
//! examples, whose answers are worked by hand there, in each call.

mod common;

use common::{agreed, LIST, RUN, VERDICT};
use reference::examples::{
    alike, equals_behind_a_link, equals_below, leak_by_choice, ring_of_equals, run_query,
    wild_query,
};
use reference::file::write;
use reference::ways::{LEFT, TIED, TRAVELLING};
use reference::Fabric;

fn fabrics() -> [Fabric; 5] {
    [
        leak_by_choice(),
        equals_below(),
        equals_behind_a_link(),
        alike(),
        ring_of_equals(),
    ]
}

/// Each limit with each budget up to some; the list with each room up to some.
#[test]
fn every_limit_budget_and_room() {
    for fabric in fabrics() {
        let file = write(&fabric);
        for limit in 1..=16 {
            for budget in (0..50).chain([187, 937, 5000]) {
                let asked = wild_query(2, limit, budget);
                let _ = agreed(VERDICT, &file, 96, &asked);
                let _ = agreed(LIST, &file, 2000, &asked);
                let _ = agreed(LIST, &file, 2000, &asked.of_the_lost());
            }
            for lent in 0..200 {
                let _ = agreed(LIST, &file, lent, &wild_query(2, limit, 40));
            }
        }
    }
}

/// Fate, port and hops.
fn run_of(fabric: &Fabric, limit: u32, header: [u32; 4]) -> [u32; 3] {
    let words = agreed(RUN, &write(fabric), 96, &run_query(1, limit, header)).unwrap();
    [words[0], words[2], words[3]]
}

#[test]
fn runs() {
    assert_eq!(run_of(&leak_by_choice(), 1, [0, 0, 80, 0]), [TIED, 1, 0]);
    assert_eq!(run_of(&alike(), 16, [1, 2, 3, 4]), [TIED, 1, 0]);
    // What a higher entry takes isn't tied; what it leaves is.
    assert_eq!(run_of(&equals_below(), 2, [0, 0, 0, 1]), [LEFT, 2, 2]);
    assert_eq!(run_of(&equals_below(), 2, [0, 0, 0, 2]), [TIED, 1, 0]);
    // At the limit the link counts, not what stands behind it.
    let header = [5, 6, 7, 8];
    let of = |limit| run_of(&equals_behind_a_link(), limit, header);
    assert_eq!(of(1), [TRAVELLING, 11, 1]);
    assert_eq!(of(2), [TIED, 11, 1]);
    assert_eq!(of(16), [TIED, 11, 1]);
}

/// The packet that the verdict shows has a run that doesn't choose.
#[test]
fn a_leak_under_one_choice() {
    let file = write(&leak_by_choice());
    let words = agreed(VERDICT, &file, 96, &wild_query(2, 16, 1)).unwrap();
    assert_eq!(words[..9], [1, 1, 1, 1, 0, 0, 80, 0, 1]);
}

/// A pair by each of two entries that do the same: a find each.
#[test]
fn one_pair_in_two_finds() {
    let listed = agreed(LIST, &write(&alike()), 80, &wild_query(2, 1, 2)).unwrap();
    assert_eq!(listed[..2], [0x60001001, 0x70000000]);
    assert_eq!(listed[10..12], [0x60001001, 0x70000001]);
    assert_eq!(listed[2..10], listed[12..]);
}

/// More ways than any budget has units: that is question 13.
#[test]
fn a_ring_of_equals() {
    let file = write(&ring_of_equals());
    for (call, lent) in [(VERDICT, 96), (LIST, 1 << 20)] {
        let of = |limit, budget| agreed(call, &file, lent, &wild_query(2, limit, budget));
        assert_eq!(of(16, 10_000_000), Err((13, 0)));
        assert_eq!(of(5, 936), Err((13, 0)));
        assert!(of(5, 937).is_ok());
    }
}
