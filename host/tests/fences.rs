//! Nothing is read or written past the file and the area: they lie against
//! pages that end the test when they are touched.

mod common;

use std::cell::RefCell;

use common::fence::{Fenced, Side};
use common::{reference_alone, Call, LIST, RUN, VERDICT};
use reference::examples::{fabric_f, run_query, wild_query};
use reference::file::{start_under, write};
use reference::random::{any, cases, damage, largest, Rng};
use reference::Query;

/// Room for the longest file, and one that is too long.
const MOST_FILE: usize = 50_000;
const MOST_AREA: usize = 20_000;

fn calls() -> Vec<Call> {
    vec![RUN, VERDICT, LIST]
}

/// Makes the call between fences, and compares code and area with the
/// reference's.
fn check(call: Call, places: &mut [Fenced; 2], file: &[u8], lent: usize, query: &Query) {
    let [for_file, for_area] = places;
    for side in [Side::Before, Side::After] {
        let file_there = for_file.bytes(file.len(), side);
        file_there.copy_from_slice(file);
        let area_there = for_area.bytes(lent, side);
        area_there.copy_from_slice(&common::fresh(lent));
        let code = call.product(file_there, area_there, query);
        let expected = reference_alone(call, file, lent, query);
        assert_eq!(code, expected.0);
        assert!(area_there == expected.1);
    }
}

fn places() -> RefCell<[Fenced; 2]> {
    RefCell::new([Fenced::new(MOST_FILE), Fenced::new(MOST_AREA)])
}

#[test]
fn random_and_damaged_files() {
    let places = places();
    cases(10_000_000, 3000, |rng| {
        let fabric = any(rng);
        let mut file = write(&fabric);
        if rng.once_in(2) {
            file = damage(&file, rng);
            file.truncate(MOST_FILE);
        }
        for call in calls() {
            let asked = (call.query)(rng, &fabric, 2000);
            let lent = rng.one_of([0, 95, 96, 97, 1000, MOST_AREA]);
            check(call, &mut places.borrow_mut(), &file, lent, &asked);
        }
    });
}

/// A file that ends anywhere, with a start that says so: each record is cut
/// short somewhere.
#[test]
fn files_that_stop_anywhere() {
    let places = places();
    cases(10_100_000, 300, |rng| {
        let made = match rng.once_in(20) {
            true => largest(rng),
            false => reference::random::small(rng).fabric,
        };
        let whole = write(&made);
        for _ in 0..20 {
            let words = rng.between(2, whole.len() / 4);
            let mut file = whole[..4 * words].to_vec();
            let start = start_under(made.openflow, words);
            file[..4].copy_from_slice(&start.to_le_bytes());
            for call in calls() {
                let asked = any_query(rng);
                check(call, &mut places.borrow_mut(), &file, 96, &asked);
            }
        }
    });
}

fn any_query(rng: &mut Rng) -> Query {
    Query {
        port: rng.below(4096) as u32,
        limit: 16,
        budget: 100,
        care: [u32::MAX; 4],
        value: [0; 4],
    }
}

/// Areas of every length.
#[test]
fn areas_of_every_length() {
    let places = places();
    let file = fabric_f();
    for lent in 0..200 {
        for call in calls() {
            let asked = match call.number {
                3 => run_query(1, 16, [0; 4]),
                _ => wild_query(2, 16, 9),
            };
            check(call, &mut places.borrow_mut(), &file, lent, &asked);
            let lost = asked.of_the_lost();
            check(call, &mut places.borrow_mut(), &file, lent, &lost);
        }
    }
}
