//! Damaged files, files that stop anywhere, and every bit of some.

use reference::examples::{
    denied_across_words, no_arp, one_host_admitted, one_pcp_taken, routed, wide_f, wide_reply,
};
use reference::file::{start_of, write};
use reference::random::{any, damage, inflict, largest, small, wide_cases, Damage};
use reference::wide::Query;
use reference::{Bits, Transfer, Wide};

use crate::calls::{agreed, CALLS, ROOM, RUN, VERDICT};

/// Damaged in each way, some of them once more at random.
#[test]
fn damaged_files() {
    let all = Damage::ALL.into_iter().chain(Damage::OF_VERSION_2);
    for (number, how) in (0..).zip(all) {
        wide_cases(13_600_000 + 1000 * number, 40, |rng| {
            let fabric = any(rng);
            let mut file = inflict(how, &write(&fabric), rng).bytes;
            if rng.once_in(3) {
                file = damage(&file, rng);
            }
            for call in CALLS {
                let asked = (call.query)(rng, &fabric, 2000);
                let _ = agreed(call, &file, rng.one_of([0, ROOM, 2000]), &asked);
            }
        });
    }
}

/// With a start that says so: each record is cut short somewhere.
#[test]
fn files_that_stop_anywhere() {
    wide_cases(13_700_000, 300, |rng| {
        let made = match rng.once_in(20) {
            true => largest(rng),
            false => small(rng).fabric,
        };
        let whole = write(&made);
        for _ in 0..20 {
            let words = rng.between(2, whole.len() / 4);
            let mut file = whole[..4 * words].to_vec();
            let start = start_of(Wide::VERSION, made.openflow, words);
            file[..4].copy_from_slice(&start.to_le_bytes());
            for call in CALLS {
                let asked = (call.query)(rng, &made, 100);
                let _ = agreed(call, &file, ROOM, &asked);
            }
        }
    });
}

#[test]
fn every_length_of_file_and_area() {
    let asked = Query::wild(2, 16, 2);
    let packet = Query::packet(1, 16, Wide::default());
    for length in 0..=wide_f().len() {
        let file = &wide_f()[..length];
        let _ = agreed(VERDICT, file, ROOM, &asked);
        let _ = agreed(RUN, file, ROOM, &packet);
    }
    for lent in 0..200 {
        for (call, asked) in [(VERDICT, &asked), (RUN, &packet)] {
            let answer = agreed(call, &wide_f(), lent, asked);
            assert_eq!(answer.is_ok(), lent >= ROOM, "{lent} lent");
        }
    }
}

/// Every bit flipped, of each fabric made by hand.
#[test]
fn every_bit_matters_alike() {
    let fabrics = [
        no_arp(),
        routed(),
        one_host_admitted(),
        one_pcp_taken(),
        wide_reply(Transfer::Swap),
        denied_across_words(),
    ];
    let header = [1, 2, 3, 4, 0x02000000, 0x00010200, 2, 0x08060500];
    let packet = Query::packet(1, 16, Wide::from_words(header));
    for whole in fabrics.iter().map(write).chain([wide_f()]) {
        for bit in 0..8 * whole.len() {
            let mut file = whole.clone();
            file[bit / 8] ^= 1 << (bit % 8);
            for call in CALLS {
                let asked = match call.name {
                    "run" => packet,
                    _ => Query::wild(2, 16, 50),
                };
                let _ = agreed(call, &file, 2000, &asked);
            }
        }
    }
}
