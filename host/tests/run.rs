//! The packet run of the static library against the reference.

mod common;

use std::cell::Cell;

use common::{agreed, checks, transfers, Seen, RUN};
use reference::brute;
use reference::examples::{fabric_f, run_query};
use reference::file::{read, start_under, to_le_bytes, write};
use reference::random::{
    any, cases, damage, inflict, largest, packet, small_ring, ties, Damage, Rng,
};
use reference::set::to_words;
use reference::ways::{Packet, DROPPED, TIED};
use reference::{Fabric, OpenFlow};

/// What F sends on to port 2.
const HEADER: [u32; 4] = [0, 0x0a00_0002, 2, 0];

/// Mostly room for the answer, also none.
fn some_length(rng: &mut Rng) -> usize {
    match rng.below(4) {
        0 => rng.below(96),
        1 => 96,
        _ => rng.between(96, 200),
    }
}

/// All five fates come up, by ways with copies and swaps too, and are also what
/// naive forwarding gives. Under OpenFlow 1.3 some are dropped by no entry.
#[test]
fn random_fabrics() {
    let (fates, moved, missed): ([Cell<u32>; 5], [Seen; 5], Seen) = Default::default();
    cases(1_000_000, 15_000, |rng| {
        let fabric = any(rng);
        let file = write(&fabric);
        for _ in 0..10 {
            let query = packet(rng, &fabric);
            if let Ok(words) = agreed(RUN, &file, some_length(rng), &query) {
                let naive = Packet::asked(&fabric, &query).run();
                assert_eq!(words, naive.words().unwrap());
                let fate = &fates[words[0] as usize];
                fate.set(fate.get() + 1);
                moved[words[0] as usize].add(transfers(&fabric, &naive.entries).into());
                missed.add(is_missed(&fabric, &words).into());
            }
        }
    });
    let replayed = fates.iter().map(Cell::get).sum::<u32>() <= 10;
    assert!(replayed || fates.iter().all(|fate| fate.get() > 500));
    for moved in moved {
        moved.at_least(300);
    }
    missed.at_least(1000);
}

/// Whether a run's packet is dropped and no entry did it.
fn is_missed(fabric: &Fabric, words: &[u32]) -> bool {
    let taken = &words[8..][..words[3] as usize];
    let drops = |&last: &u32| fabric.entries[last as usize].out_port == 0;
    words[0] == DROPPED && !taken.last().is_some_and(drops)
}

/// Every header over a few bits, from every edge port.
#[test]
fn every_header_of_small_fabrics() {
    let tied = Seen::default();
    cases(1_100_000, 300, |rng| {
        let made = match rng.once_in(2) {
            true => small_ring(rng),
            false => ties(rng),
        };
        let file = write(&made.fabric);
        let limit = rng.between(1, 16) as u32;
        for header in brute::headers(&made.bits) {
            for edge in &made.fabric.edges {
                let query = run_query(edge.port.into(), limit, to_words(header));
                let words = agreed(RUN, &file, 96, &query).unwrap();
                let naive = Packet::asked(&made.fabric, &query).run();
                assert_eq!(words, naive.words().unwrap());
                tied.add((words[0] == TIED).into());
            }
        }
    });
    tied.at_least(1000);
}

#[test]
fn files_damaged_in_each_way() {
    for (number, how) in (0..).zip(Damage::ALL) {
        cases(1_200_000 + 1000 * number, 100, |rng| {
            let fabric = any(rng);
            let damaged = inflict(how, &write(&fabric), rng);
            let query = packet(rng, &fabric);
            let answer = agreed(RUN, &damaged.bytes, some_length(rng), &query);
            if let Some(refusal) = damaged.refusal {
                assert_eq!(
                    answer,
                    Err((refusal.number, refusal.place as u64)),
                    "{how:?}"
                );
            }
        });
    }
}

#[test]
fn files_damaged_more_than_once() {
    cases(1_300_000, 8000, |rng| {
        let fabric = any(rng);
        let mut file = write(&fabric);
        for _ in 0..rng.between(2, 4) {
            file = damage(&file, rng);
        }
        let _ = agreed(RUN, &file, some_length(rng), &packet(rng, &fabric));
    });
}

/// Words of random kinds in a file whose start is right.
#[test]
fn files_of_random_words() {
    cases(1_400_000, 10_000, |rng| {
        let mut words = vec![0];
        for _ in 0..rng.between(0, 60) {
            let kind = rng.one_of([2, 3, 3, 4, 5, 9]) << 28;
            let low = rng.draw() as u32 & rng.one_of([0, 0xfff, 0x00ff_ffff, u32::MAX]);
            words.push(if rng.once_in(3) { 0 } else { kind | low });
        }
        words.push(0x5000_0000);
        words[0] = start_under(rng.one_of(OpenFlow::ALL), words.len());
        let query = run_query(rng.below(8) as u32, 16, [0; 4]);
        let _ = agreed(RUN, &to_le_bytes(&words), 96, &query);
    });
}

#[test]
fn every_length_of_file_and_area() {
    let query = run_query(1, 16, HEADER);
    checks::every_length_of_file_and_area(RUN, &query);
    let most = write(&largest(&mut Rng::new(7)));
    for length in 40_100..40_300 {
        let mut file = most.clone();
        file.resize(length, 0);
        let answer = agreed(RUN, &file, 96, &query);
        let read_on = matches!(answer, Ok(_) | Err((11, 0)));
        assert_eq!(read_on, length == 40_200);
    }
}

#[test]
fn every_bit_matters_alike() {
    checks::every_bit_matters_alike(RUN, 96, &run_query(1, 16, HEADER));
}

#[test]
fn questions_9_to_12_in_turn() {
    checks::questions_in_turn(
        RUN,
        run_query(1, 16, [0; 4]),
        96,
        &[
            (9, |query, _| query.limit = 0),
            (10, |query, _| query.care[2] = 0x7fff_ffff),
            (11, |query, _| query.port = 3),
            (12, |_, lent| *lent = 95),
        ],
    );
}

#[test]
fn numbers_out_of_range() {
    checks::numbers_out_of_range(RUN, run_query(1, 16, HEADER), 11);
    let from_0 = agreed(RUN, &fabric_f(), 96, &run_query(0, 16, HEADER));
    assert_eq!(from_0, Err((11, 0)));
}

#[test]
fn every_bit_of_the_header_is_cared_for() {
    for bit in 0..128 {
        let mut query = run_query(1, 1, [0; 4]);
        query.care[bit / 32] ^= 1 << (bit % 32);
        assert_eq!(agreed(RUN, &fabric_f(), 96, &query), Err((10, 0)));
        query.value[bit / 32] = 1 << (bit % 32);
        assert_eq!(agreed(RUN, &fabric_f(), 96, &query), Err((10, 0)));
    }
}

/// E1, E6 and E7 of document 01, as far as they are about a run.
#[test]
fn checked_examples() {
    let of = |limit| agreed(RUN, &fabric_f(), 96, &run_query(1, limit, [0; 4]));
    assert!(of(1).is_ok());
    assert!(of(16).is_ok());
    assert_eq!(of(17), Err((9, 0)));
    let start_and_end = to_le_bytes(&[0x10010002, 0x50000000]);
    assert!(read(&start_and_end).is_ok());
    assert_eq!(
        agreed(RUN, &start_and_end, 96, &run_query(1, 16, [0; 4])),
        Err((11, 0))
    );
}

#[test]
fn calls_at_the_same_time() {
    checks::calls_at_the_same_time(RUN, (1_500_000, 500), 96);
}
