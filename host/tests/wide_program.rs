//! The proved program against the reference, asked in version 2.

mod common;

use common::program::{printed, printed_in_pieces};
use reference::examples::{fabric_f, many_finds, no_arp, wide_f, wild_query};
use reference::file::write;
use reference::query::{input, print, LIST, RUN, VERDICT};
use reference::random::{any, cases, damage, list_query, packet, wide_cases};
use reference::wide::{widened, Query};
use reference::{Bits, Wide};

const NO_14: &str = "no 14 at 0\n";

/// What both print.
fn agreed(input: &[u8]) -> String {
    let text = printed(input);
    assert_eq!(text, print(input));
    text
}

#[test]
fn random_inputs() {
    wide_cases(15_000_000, 1500, |rng| {
        let fabric = any(rng);
        let call = rng.one_of([VERDICT, LIST, RUN]);
        let asked = match call {
            RUN => packet(rng, &fabric),
            _ => list_query(rng, &fabric, 10_000),
        };
        let mut file = write(&fabric);
        if rng.once_in(3) {
            file = damage(&file, rng);
        }
        let mut bytes = input(call, &asked, &file);
        match rng.below(12) {
            0 => bytes.truncate(rng.below(100)),
            1 => bytes.resize(bytes.len() + rng.between(1, 5), 0),
            // The mark of version 2 is gone, and the file begins earlier.
            2 => bytes[3] ^= 0x80,
            _ => (),
        }
        let _ = agreed(&bytes);
    });
}

/// Version 1's inputs with the mark of version 2.
#[test]
fn inputs_marked_as_version_2() {
    cases(15_010_000, 200, |rng| {
        let fabric = any(rng);
        let asked = list_query(rng, &fabric, 1000);
        let mut bytes = input(LIST, &asked, &write(&fabric));
        bytes[3] |= 0x80;
        let _ = agreed(&bytes);
    });
}

/// Fewer than 80 bytes are no query of version 2, and fewer than four no word.
#[test]
fn inputs_that_stop_short() {
    let asked = Query::packet(1, 1, Wide::default());
    let whole = input(RUN, &asked, &wide_f());
    for length in (0..100).chain([whole.len() - 1, whole.len()]) {
        let text = agreed(&whole[..length]);
        assert_eq!(text == NO_14, length < 80, "{length} bytes");
    }
}

#[test]
fn unknown_calls() {
    for call in [0, 4, 5, 0x103, 0x0300_0000, 0x4000_0001, 0x7fff_ffff] {
        assert_eq!(
            agreed(&input(call, &Query::wild(2, 1, 2), &wide_f())),
            NO_14
        );
        assert_eq!(agreed(&input(call, &Query::wild(9, 99, 0), &[])), NO_14);
    }
}

#[test]
fn inputs_of_any_length() {
    for length in [
        40_200, 40_204, 59_780, 59_784, 59_785, 59_788, 65_536, 3_000_000,
    ] {
        for mut file in [wide_f(), fabric_f()] {
            file.resize(length, 0);
            let _ = agreed(&input(RUN, &Query::packet(1, 1, Wide::default()), &file));
            let _ = agreed(&input(RUN, &wild_query(1, 1, 0), &file));
        }
    }
}

/// A pipe may give a few bytes at a time.
#[test]
fn inputs_that_come_in_pieces() {
    let header = [0, 0x0a00_0002, 2, 0, 5, 6, 7, 0x0800_0100];
    let asked = Query::packet(1, 1, Wide::from_words(header));
    let whole = input(RUN, &asked, &wide_f());
    for size in [1, 3, 4, 47, 48, 79, 80, 81, 100] {
        assert_eq!(printed_in_pieces(&whole, size), print(&whole));
    }
}

/// Of each version's files, each version's query takes its own.
#[test]
fn versions_mixed() {
    for (call, lines) in [(VERDICT, "ok 28\n"), (LIST, "ok 36\n")] {
        let asked = Query::wild(2, 1, 2);
        assert!(agreed(&input(call, &asked, &wide_f())).starts_with(lines));
        assert_eq!(agreed(&input(call, &asked, &fabric_f())), "no 2 at 0\n");
        let asked = wild_query(2, 1, 2);
        assert_eq!(agreed(&input(call, &asked, &wide_f())), "no 2 at 0\n");
    }
    let judged = agreed(&input(VERDICT, &Query::wild(2, 1, 2), &write(&no_arp())));
    assert_eq!(judged.lines().nth(12), Some("80000000"));
}

/// 65,536 bytes are room for 910 finds of one hop, 18 words each.
#[test]
fn the_longest_list() {
    for (finds, fits) in [(910, true), (911, false)] {
        let file = write(&widened(&many_finds(finds, 0)));
        let text = agreed(&input(LIST, &Query::wild(1, 2, 31), &file));
        assert_eq!(text != "no 12 at 0\n", fits, "{finds} finds");
    }
}
