//! What more than one of the calls goes through, each with its own query,
//! room and seeds, which are given by the first and how many.

use std::cell::Cell;
use std::thread;

use super::{agreed, fresh, product_alone, Call};
use mwishovala::limits;
use reference::examples::{fabric_f, linked, replies_behind_a_link};
use reference::file::write;
use reference::random::{any, cases, damage, deep_ring, inflict, Damage, Rng};
use reference::{Query, Transfer};

/// Damaged in each way, some of them once more at random.
pub fn damaged_files(call: Call, first: u64, length: fn(&mut Rng) -> usize) {
    for (number, how) in (0..).zip(Damage::ALL) {
        cases(first + 1000 * number, 40, |rng| {
            let fabric = any(rng);
            let mut file = inflict(how, &write(&fabric), rng).bytes;
            if rng.once_in(3) {
                file = damage(&file, rng);
            }
            let asked = (call.query)(rng, &fabric, 2000);
            let _ = agreed(call, &file, length(rng), &asked);
        });
    }
}

/// Just below its count a budget isn't enough; at it and above, it is. `count`
/// gives the count if the query, with a budget of `most`, gets an answer. Gives
/// how many counts were above 0.
pub fn budgets_around_the_count(
    call: Call,
    seeds: (u64, u64),
    most: u32,
    count: fn(&[u8], &Query) -> Option<u32>,
    is_enough: fn(&[u8], &Query) -> bool,
) -> u32 {
    let counted = Cell::new(0);
    cases(seeds.0, seeds.1, |rng| {
        let fabric = any(rng);
        let file = write(&fabric);
        let asked = Query {
            budget: most,
            ..(call.query)(rng, &fabric, 1)
        };
        let Some(count) = count(&file, &asked) else {
            return;
        };
        for budget in [0, count.saturating_sub(1), count, count + 1, u32::MAX] {
            let is_enough = is_enough(&file, &Query { budget, ..asked });
            assert_eq!(is_enough, budget >= count, "a budget of {budget}");
        }
        counted.set(counted.get() + u32::from(count > 0));
    });
    counted.get()
}

/// The product's code for the deepest descent, 16 hops of 63 beaters, on a
/// thread with the least stack that is asked for. All entries copy, which adds no units:
/// both addresses are rewritten.
pub fn with_little_stack(call: Call, room: usize) -> u64 {
    let mut ring = deep_ring();
    for entry in &mut ring.fabric.entries {
        entry.transfer = Transfer::Copy;
    }
    let file = write(&ring.fabric);
    let deepest = move || call.product(&file, &mut vec![0; room], &ring.query);
    let thread = thread::Builder::new().stack_size(limits::STACK_BYTES);
    thread.spawn(deepest).unwrap().join().unwrap()
}

/// The library keeps nothing between calls: threads don't disturb each other.
pub fn calls_at_the_same_time(call: Call, seeds: (u64, u64), lent: usize) {
    thread::scope(|scope| {
        for number in 0..4 {
            scope.spawn(move || {
                cases(seeds.0 + 1000 * number, seeds.1, |rng| {
                    let fabric = any(rng);
                    let file = write(&fabric);
                    let asked = (call.query)(rng, &fabric, 20_000);
                    let _ = agreed(call, &file, lent, &asked);
                });
            });
        }
    });
}

/// Of F, for a call that fills 96 bytes.
pub fn every_length_of_file_and_area(call: Call, asked: &Query) {
    for length in 0..=fabric_f().len() {
        let _ = agreed(call, &fabric_f()[..length], 96, asked);
    }
    for lent in 0..200 {
        let answer = agreed(call, &fabric_f(), lent, asked);
        assert_eq!(answer.is_ok(), lent >= 96);
    }
}

/// Every bit flipped, of F and of two fabrics with links, of which one copies and
/// swaps.
pub fn every_bit_matters_alike(call: Call, lent: usize, asked: &Query) {
    let (linked, replies) = (linked(), replies_behind_a_link());
    for whole in [fabric_f(), write(&linked), write(&replies)] {
        for bit in 0..8 * whole.len() {
            let mut file = whole.clone();
            file[bit / 8] ^= 1 << (bit % 8);
            let _ = agreed(call, &file, lent, asked);
        }
    }
}

/// Ports and limits whose low bits would do, also for a list of the lost.
/// `question` is the port's.
pub fn numbers_out_of_range(call: Call, asked: Query, question: u8) {
    let of = |asked| agreed(call, &fabric_f(), 96, &asked);
    let right = asked.port;
    let near = [3, right + 4096, right + 65_536, u32::MAX];
    for port in near.into_iter().chain([4096, 65_536, 1 << 31]) {
        assert_eq!(of(Query { port, ..asked }), Err((question, 0)));
    }
    for limit in [0, 17, 256 + 1, 65_536 + 1, 1 << 31, u32::MAX] {
        assert_eq!(of(Query { limit, ..asked }), Err((9, 0)));
    }
}

/// Each bit of the value that the care leaves out.
pub fn values_outside_the_care(call: Call, asked: Query) {
    for bit in 0..128 {
        let mut asked = asked;
        asked.care[bit / 32] = !(1 << (bit % 32));
        asked.value[bit / 32] = 1 << (bit % 32);
        let answer = agreed(call, &fabric_f(), 96, &asked);
        assert_eq!(answer, Err((10, 0)));
    }
}

/// Both say this no, with place 0, and every lent byte is as it was.
pub fn refused(call: Call, file: &[u8], lent: usize, asked: &Query, question: u8) {
    assert_eq!(agreed(call, file, lent, asked), Err((question, 0)));
    assert!(product_alone(call, file, lent, asked).1 == fresh(lent));
}

/// What makes a question get a no: a change of the query or of the room.
pub type Spoil = fn(&mut Query, &mut usize);

/// Of the questions that get a no, the one asked first answers. Spoils any of
/// these questions, which are in the order they are asked in.
pub fn questions_in_turn(call: Call, asked: Query, room: usize, order: &[(u8, Spoil)]) {
    for noes in 0..1 << order.len() {
        let (mut asked, mut lent) = (asked, room);
        let mut first = None;
        for (place, &(question, spoil)) in order.iter().enumerate() {
            if noes >> place & 1 == 1 {
                spoil(&mut asked, &mut lent);
                first = first.or(Some((question, 0)));
            }
        }
        let answer = agreed(call, &fabric_f(), lent, &asked);
        assert_eq!(answer.err(), first);
    }
}
