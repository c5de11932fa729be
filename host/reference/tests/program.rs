//! The program: from standard input to what it prints.

use reference::examples::{fabric_f, many_finds, run_query, wide_f, wild_query};
use reference::file::write;
use reference::query::{input, print, LIST, RUN, VERDICT};
use reference::random::source::Rng;
use reference::random::{any, cases_of, damage, largest, list_query, WideRng};
use reference::wide::{self, widened};
use reference::{Bits, Header, Wide};

#[test]
fn question_14_comes_before_all() {
    let whole = input(VERDICT, &wild_query(2, 1, 2), &fabric_f());
    for length in 0..48 {
        assert_eq!(print(&whole[..length]), "no 14 at 0\n");
    }
    assert_eq!(print(&whole[..48]), "no 1 at 0\n");
    for call in [0, 4, 256 + 1, 1 << 24, u32::MAX] {
        assert_eq!(
            print(&input(call, &wild_query(9, 99, 0), &[])),
            "no 14 at 0\n"
        );
    }
}

/// "Bit 31 of the query's first word marks version 2", which takes 80 bytes; of what
/// isn't a word even that can't be told.
#[test]
fn question_14_in_version_2() {
    let whole = input(VERDICT, &wide::Query::wild(2, 1, 2), &wide_f());
    assert_eq!(whole[..4], [1, 0, 0, 0x80]);
    for length in 0..80 {
        assert_eq!(print(&whole[..length]), "no 14 at 0\n");
    }
    assert_eq!(print(&whole[..80]), "no 1 at 0\n");
    // Without the mark, 48 of them are a query, and the rest is a file.
    let mut unmarked = whole.clone();
    unmarked[3] = 0;
    assert_eq!(print(&unmarked[..48]), "no 1 at 0\n");
    assert_eq!(print(&unmarked), "no 2 at 0\n");
    for call in [0, 4, 256 + 1, 1 << 24, 1 << 30 | 1, u32::MAX >> 1] {
        let asked = wide::Query::wild(9, 99, 0);
        assert_eq!(print(&input(call, &asked, &[])), "no 14 at 0\n");
    }
}

/// Each query is of its own version's files alone.
#[test]
fn files_of_the_other_version() {
    for call in [VERDICT, LIST, RUN] {
        let narrow = input(call, &wild_query(2, 1, 2), &wide_f());
        let wide = input(call, &wide::Query::wild(2, 1, 2), &fabric_f());
        assert_eq!(print(&narrow), "no 2 at 0\n");
        assert_eq!(print(&wide), "no 2 at 0\n");
    }
    let largest = write(&largest(&mut WideRng::new(1)));
    let narrow = input(RUN, &wild_query(0, 0, 0), &largest);
    let wide = input(RUN, &wide::Query::wild(0, 0, 0), &largest);
    assert_eq!(print(&narrow), "no 1 at 0\n");
    assert_eq!(print(&wide), "no 9 at 0\n");
}

#[test]
fn wide_answers_are_printed() {
    let printed = print(&input(VERDICT, &wide::Query::wild(2, 1, 2), &wide_f()));
    let words = [1, 2, 1, 1, 0, 0x0a000002, 2, 0, 0, 0, 0, 0, 1];
    assert_eq!(printed, wide_lines(&words));
    let header = [1, 0x0a000002, 2, 0, 5, 6, 7, 0x08000300];
    let packet = wide::Query::packet(1, 1, Wide::from_words(header));
    let printed = print(&input(RUN, &packet, &wide_f()));
    let words = [0, 0, 2, 1, 1, 0x0a000002, 2, 0, 5, 6, 7, 0x08000300, 1];
    assert_eq!(printed, wide_lines(&words));
    let printed = print(&input(LIST, &wide::Query::wild(2, 1, 2), &wide_f()));
    assert!(printed.starts_with("ok 36\n60001001\n70000001\n00000000\nffffffff\n00000002\n"));
    let printed = print(&input(LIST, &wide::Query::wild(1, 1, 0), &wide_f()));
    assert_eq!(printed, "ok 0\n");
}

/// `ok 28`, these words and zeros.
fn wide_lines(words: &[u32]) -> String {
    let words = words.iter().copied().chain([0; 28]).take(28);
    let lines: String = words.map(|word| format!("{word:08x}\n")).collect();
    format!("ok 28\n{lines}")
}

/// 65,536 bytes are room for 910 finds of one hop, 18 words each, and not for one
/// more.
#[test]
fn a_wide_list_has_65_536_bytes() {
    let printed = |near: u32| {
        let file = write(&widened(&many_finds(near, 0)));
        print(&input(LIST, &wide::Query::wild(1, 2, 31), &file))
    };
    assert!(printed(910).starts_with("ok 16380\n"));
    assert_eq!(printed(911), "no 12 at 0\n");
}

#[test]
fn a_no_has_its_place() {
    let mut file = fabric_f();
    // Entry 1's zero bits.
    file[38 * 4 + 3] = 1;
    assert_eq!(
        print(&input(LIST, &wild_query(2, 1, 2), &file)),
        "no 3 at 37\n"
    );
    assert_eq!(
        print(&input(LIST, &wild_query(2, 1, 1), &fabric_f())),
        "no 13 at 0\n"
    );
}

#[test]
fn an_input_longer_than_any_fabric() {
    let mut file = fabric_f();
    file.resize(1_000_000, 0);
    assert_eq!(
        print(&input(RUN, &wild_query(0, 0, 0), &file)),
        "no 1 at 0\n"
    );
}

#[test]
fn verdict_and_run_are_printed() {
    let printed = print(&input(VERDICT, &wild_query(2, 1, 2), &fabric_f()));
    let words = "00000001 00000002 00000001 00000001 00000000 0a000002 00000002 00000000 00000001";
    assert_eq!(printed, lines(words));
    let header = [0xabcdef01, 0x0a000002, 2, 0];
    let printed = print(&input(RUN, &run_query(1, 1, header), &fabric_f()));
    let words = "00000000 00000000 00000002 00000001 abcdef01 0a000002 00000002 00000000 00000001";
    assert_eq!(printed, lines(words));
}

/// `ok 24`, these words and zeros.
fn lines(words: &str) -> String {
    let zeros = std::iter::repeat("00000000");
    let words: Vec<&str> = words.split(' ').chain(zeros).take(24).collect();
    format!("ok 24\n{}\n", words.join("\n"))
}

#[test]
fn an_empty_list_is_ok_0() {
    let printed = print(&input(LIST, &wild_query(1, 1, 0), &fabric_f()));
    assert_eq!(printed, "ok 0\n");
}

/// 65,536 bytes are room for 16,384 words: 1,634 finds of one hop, ten words
/// each, and 4 of two hops, eleven words each.
#[test]
fn the_list_has_65_536_bytes() {
    let printed = |near: u32, far: u32| {
        let file = write(&many_finds(near, far));
        print(&input(LIST, &wild_query(1, 2, 31), &file))
    };
    let full = printed(1634, 4);
    assert!(full.starts_with("ok 16384\n600020c8\n7000001e\n70000000\n"));
    assert_eq!(full.lines().count(), 16_385);
    assert_eq!(printed(1633, 5), "no 12 at 0\n");
}

#[test]
fn any_input_has_an_answer() {
    check_any_input::<Header>((800_000, 1500));
    check_any_input::<Wide>((1_800_000, 1500));
}

fn check_any_input<B: Bits>(seeds: (u64, u64)) {
    cases_of(seeds.0, seeds.1, |rng: &mut Rng<B>| {
        let fabric = any(rng);
        let asked = list_query(rng, &fabric, 1000);
        let mut file = write(&fabric);
        if rng.once_in(4) {
            file = damage(&file, rng);
        }
        let mut bytes = input(rng.between(1, 3) as u32, &asked, &file);
        if rng.once_in(4) {
            let place = rng.below(bytes.len());
            bytes[place] ^= 1 << rng.below(8);
        }
        let printed = print(&bytes);
        let (first, words) = printed.split_once('\n').unwrap();
        match first.strip_prefix("ok ") {
            Some(number) => assert_eq!(words.len(), 9 * number.parse::<usize>().unwrap()),
            None => assert!(first.starts_with("no ") && words.is_empty()),
        }
    });
}
