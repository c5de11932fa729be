//! Questions 8 to 13 in version 2.

use reference::examples::wide_f;
use reference::wide::Query;
use reference::Wide;

use crate::calls::{agreed, Call, CALLS, LIST, ROOM, RUN, VERDICT};

/// A query that each call answers.
fn right(call: Call) -> Query {
    match call.name {
        "run" => Query::packet(1, 16, Wide::default()),
        _ => Query::wild(2, 16, 2),
    }
}

/// Each bit of each word: a zero bit that is cared for, a value outside the care, and
/// what a run doesn't care for.
#[test]
fn every_bit_of_the_asked_set() {
    for (word, bit) in (0..8).flat_map(|word| (0..32).map(move |bit| (word, 1 << bit))) {
        let is_zero_bit = word == 7 && bit < 0x100;
        for call in CALLS {
            let mut cared_for = right(call);
            cared_for.care[word] ^= bit;
            let refused = is_zero_bit || call.name == "run";
            let answer = agreed(call, &wide_f(), 2000, &cared_for);
            assert_eq!(answer.err(), refused.then_some((10, 0)), "{word}, {bit:x}");
            let mut valued = right(call);
            valued.value[word] = bit;
            let refused = is_zero_bit || call.name != "run";
            let answer = agreed(call, &wide_f(), 2000, &valued);
            assert_eq!(answer.err(), refused.then_some((10, 0)), "{word}, {bit:x}");
        }
    }
}

/// Ports and limits whose low bits would do.
#[test]
fn numbers_out_of_range() {
    for call in CALLS {
        let right = right(call);
        let question = if call.name == "run" { 11 } else { 8 };
        let of = |asked| agreed(call, &wide_f(), 2000, &asked);
        for port in [3, 4096, right.port + 4096, right.port + 65_536, u32::MAX] {
            assert_eq!(of(Query { port, ..right }), Err((question, 0)));
        }
        for limit in [0, 17, 256 + 1, 65_536 + 1, 1 << 31, u32::MAX] {
            assert_eq!(of(Query { limit, ..right }), Err((9, 0)));
        }
    }
    assert_eq!(
        agreed(VERDICT, &wide_f(), ROOM, &Query::wild(0, 16, 9)),
        Err((8, 0))
    );
    assert!(agreed(LIST, &wide_f(), 10_000, &Query::wild(0, 16, 9)).is_ok());
}

/// What makes a question get a no.
type Spoil = (u8, fn(&mut Query, &mut usize));

const PORT: fn(&mut Query, &mut usize) = |asked, _| asked.port = 3;
const LIMIT: fn(&mut Query, &mut usize) = |asked, _| asked.limit = 17;
const ZERO_BIT: fn(&mut Query, &mut usize) = |asked, _| asked.care[7] |= 0x80;
const BUDGET: fn(&mut Query, &mut usize) = |asked, _| asked.budget = 1;
const LENT: fn(&mut Query, &mut usize) = |_, lent| *lent = ROOM - 1;
const SHORT: fn(&mut Query, &mut usize) = |_, lent| *lent = 143;

/// Of the questions that get a no, the one asked first answers.
#[test]
fn questions_in_turn() {
    let of_verdict = [
        (8, PORT),
        (9, LIMIT),
        (10, ZERO_BIT),
        (12, LENT),
        (13, BUDGET),
    ];
    let of_list = [
        (8, PORT),
        (9, LIMIT),
        (10, ZERO_BIT),
        (13, BUDGET),
        (12, SHORT),
    ];
    let of_run = [(9, LIMIT), (10, ZERO_BIT), (11, PORT), (12, LENT)];
    check_order(VERDICT, &of_verdict);
    check_order(LIST, &of_list);
    check_order(RUN, &of_run);
}

fn check_order(call: Call, order: &[Spoil]) {
    for noes in 0..1 << order.len() {
        // Two finds of one hop are 36 words.
        let (mut asked, mut lent) = (right(call), 144);
        let mut first = None;
        for (place, &(question, spoil)) in order.iter().enumerate() {
            if noes >> place & 1 == 1 {
                spoil(&mut asked, &mut lent);
                first = first.or(Some((question, 0)));
            }
        }
        let answer = agreed(call, &wide_f(), lent, &asked);
        assert_eq!(answer.err(), first, "{}", call.name);
    }
}
