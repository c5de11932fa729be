//! Header sets, and what entries do to them, against what they mean, header by
//! header.

mod common;

use common::Seen;
use reference::brute::headers_over;
use reference::fabric::Entry;
use reference::random::cases_of;
use reference::random::source::Rng;
use reference::set::{from_words, to_words, Rewrite, Set};
use reference::ternary;
use reference::{Bits, Header, Transfer, Wide};

/// Two bits of each address, the same ones.
const ADDRESS_BITS: [u32; 4] = [127, 96, 95, 64];
const TRANSFERS: [Transfer; 3] = [Transfer::None, Transfer::Copy, Transfer::Swap];

/// Bits from all words, first and last among them; of the addresses the same ones.
/// In version 2 also from both sides of where fields meet.
fn bits<B: Bits>() -> Vec<u32> {
    match B::VERSION {
        1 => vec![127, 96, 95, 64, 33, 9, 0],
        _ => vec![255, 224, 223, 192, 161, 128, 127, 80, 79, 16, 8],
    }
}

fn few_bits<B: Bits>(rng: &mut Rng<B>) -> B {
    let bits = bits::<B>();
    let chosen = rng.below(1 << bits.len());
    let numbers = (0..bits.len()).filter(|i| chosen >> i & 1 == 1);
    numbers.fold(B::NONE, |all, i| all | B::bit(bits[i]))
}

fn small_set<B: Bits>(rng: &mut Rng<B>) -> Set<B> {
    let care = few_bits(rng);
    let value = few_bits(rng) & care;
    Set { care, value }
}

/// A set that cares for few of all bits, or for many.
fn wide_set<B: Bits>(rng: &mut Rng<B>) -> Set<B> {
    let mut care = rng.bits();
    for _ in 0..rng.below(5) {
        care = care & rng.bits();
    }
    let value = rng.bits() & care;
    Set { care, value }
}

fn headers<B: Bits>() -> Vec<B> {
    headers_over(&bits::<B>())
}

/// The same test of both versions, by a function of the seeds.
macro_rules! in_both_versions {
    ($($name:ident = $check:ident from $first:expr, $number:expr;)*) => {
        $(
            #[test]
            fn $name() {
                $check::<Header>(($first, $number));
                $check::<Wide>((1_000_000 + $first, $number));
            }
        )*
    };
}

in_both_versions! {
    intersection_is_what_both_contain = check_intersection from 1000, 2000;
    undo_is_what_the_entry_brings_there = check_undo_of_few_bits from 2000, 3000;
    undo_over_all_bits = check_undo_of_all_bits from 2500, 6000;
    lowest_is_the_least_header = check_lowest from 3000, 500;
    carving_takes_away_exactly_b = check_carving_of_few_bits from 4000, 3000;
    carving_goes_from_the_first_bit_to_the_last = check_carving_of_all_bits from 5000, 5000;
}

#[test]
fn words_are_in_order() {
    let words = [0x01234567, 0x89abcdef, 0xfedcba98, 0x76543210];
    let bits = 0x01234567_89abcdef_fedcba98_76543210;
    assert_eq!(from_words(words), bits);
    assert_eq!(to_words(bits), words);
    let wide = [0, 1, 2, 3, 4, 5, 6, 7].map(|word| 0x01234567 + word);
    let bits = Wide {
        old: 0x01234567_01234568_01234569_0123456a,
        ethernet: 0x0123456b_0123456c_0123456d_0123456e,
    };
    assert_eq!(Wide::from_words(wide), bits);
    assert_eq!(bits.to_words(), wide);
}

/// Numbered from the last word's last bit, and ordered from the first word on.
#[test]
fn bits_are_in_order() {
    for word in 0..8 {
        for place in 0..32 {
            let bit = Wide::bit(Wide::number(word, place));
            let mut words = [0; 8];
            words[word] = 1 << place;
            assert_eq!(bit.to_words(), words);
            assert_eq!((bit | Wide::bit(0)).first(), bit);
        }
    }
    assert!((1..256).all(|number| Wide::bit(number) > Wide::bit(number - 1)));
    assert!((1..128).all(|number| Header::bit(number) > Header::bit(number - 1)));
}

fn check_intersection<B: Bits>(seeds: (u64, u64)) {
    cases_of(seeds.0, seeds.1, |rng: &mut Rng<B>| {
        let (a, b) = (small_set(rng), small_set(rng));
        let meet = a.intersect(&b);
        assert_eq!(meet.is_some(), a.meets(&b));
        for header in headers() {
            let both = a.contains(header) && b.contains(header);
            assert_eq!(both, meet.is_some_and(|set| set.contains(header)));
        }
        assert!(meet.is_none_or(|set| set.is_proper()));
    });
}

/// An entry that does this.
fn doing<B: Bits>(transfer: Transfer, written: Set<B>) -> Entry<B> {
    Entry {
        transfer,
        rewrite: Rewrite::to(written),
        ..Entry::plain(1, 1, 2)
    }
}

/// What is undone has the headers that the entry brings there and no others; it
/// is empty if there are none. Gives whether it is.
fn check_undo<B: Bits>(entry: &Entry<B>, wanted: &Set<B>, headers: &[B]) -> bool {
    let undone = entry.undo(wanted);
    let there = |header: &B| wanted.contains(entry.apply(*header));
    for header in headers {
        let undone = undone.is_some_and(|set| set.contains(*header));
        assert_eq!(
            there(header),
            undone,
            "{header:x?}: {entry:x?}, {wanted:x?}"
        );
    }
    assert!(undone.is_none_or(|set| set.is_proper()));
    assert_eq!(undone.is_none(), !headers.iter().any(there));
    undone.is_none()
}

fn check_undo_of_few_bits<B: Bits>(seeds: (u64, u64)) {
    let headers = headers();
    for transfer in TRANSFERS {
        cases_of(seeds.0, seeds.1, |rng: &mut Rng<B>| {
            let (wanted, written) = (small_set(rng), small_set(rng));
            check_undo(&doing(transfer, written), &wanted, &headers);
        });
    }
}

/// All sets that care for some of these bits.
fn all_sets(bits: &[u32]) -> Vec<Set> {
    bits.iter().fold(vec![Set::ALL_WILD], |sets, bit| {
        let with = |value: u128| {
            let bit = Set {
                care: 1 << bit,
                value: value << bit,
            };
            sets.iter().filter_map(move |set| set.intersect(&bit))
        };
        sets.iter().copied().chain(with(0)).chain(with(1)).collect()
    })
}

/// Each rewrite after each transfer, undone for each set. A bit is not written, or
/// 0 or 1 is; and it may be anything, or 0 or 1 is wanted: 7 of these 9 cases can
/// be met, all but one written and the other wanted. Under a copy, of the 49 cases
/// of a bit of nw_src and the same of nw_dst, 2 can't: neither is written, and one
/// is wanted to be 0, the other 1.
#[test]
fn undo_over_four_bits() {
    let headers = reference::brute::headers(&ADDRESS_BITS);
    let sets = all_sets(&ADDRESS_BITS);
    for (transfer, met) in TRANSFERS.into_iter().zip([7 * 7, 7 * 7 - 2, 7 * 7]) {
        let mut empty = 0;
        for written in &sets {
            let doing = doing(transfer, *written);
            let is_empty = |wanted: &&Set| check_undo(&doing, wanted, &headers);
            empty += sets.iter().filter(is_empty).count();
        }
        assert_eq!(empty, 81 * 81 - met * met, "{transfer:?}");
    }
}

/// For a header of what is undone or one that differs in some bits; and the strings
/// of 0, 1 and x have it the same.
fn check_undo_of_all_bits<B: Bits>(seeds: (u64, u64)) {
    let [inside, outside, empty]: [Seen; 3] = Default::default();
    cases_of(seeds.0, seeds.1, |rng: &mut Rng<B>| {
        let doing = doing(rng.one_of(TRANSFERS), wide_set(rng));
        let mut wanted = wide_set(rng);
        if !rng.once_in(4) {
            // What a header becomes is wanted, so that there is one.
            wanted.value = doing.apply(rng.bits()) & wanted.care;
        }
        let undone = doing.undo(&wanted);
        let by_strings = ternary::undo(&doing, &ternary::from_set(&wanted));
        assert_eq!(by_strings, undone.map(|set| ternary::from_set(&set)));
        empty.count(undone.is_none());
        let Some(set) = undone else {
            return;
        };
        let few = rng.bits() & rng.bits() & rng.bits();
        let header = (set.value | rng.bits() & !set.care) ^ rng.one_of([B::NONE, few]);
        let there = wanted.contains(doing.apply(header));
        assert_eq!(there, set.contains(header));
        inside.count(there);
        outside.count(!there);
    });
    for seen in [inside, outside, empty] {
        seen.at_least(500);
    }
}

/// "1 to copy nw_src over nw_dst or 2 to swap them, before the rewrite."
#[test]
fn addresses_are_moved_before_the_rewrite() {
    let header = from_words([0x0a000001, 0x0b000002, 3, 4]);
    let becomes = |transfer, written| to_words(doing(transfer, written).apply(header));
    let last_bytes = Set::of_words([0xff, 0xffff, 0, 0xff], [7, 0x0808, 0, 9]);
    for (transfer, moved, written) in [
        (
            Transfer::None,
            [0x0a000001, 0x0b000002],
            [0x0a000007, 0x0b000808],
        ),
        (
            Transfer::Copy,
            [0x0a000001, 0x0a000001],
            [0x0a000007, 0x0a000808],
        ),
        (
            Transfer::Swap,
            [0x0b000002, 0x0a000001],
            [0x0b000007, 0x0a000808],
        ),
    ] {
        let ([src, dst], [new_src, new_dst]) = (moved, written);
        assert_eq!(becomes(transfer, Set::ALL_WILD), [src, dst, 3, 4]);
        assert_eq!(becomes(transfer, last_bytes), [new_src, new_dst, 3, 9]);
    }
}

#[test]
fn rewriting_changes_masked_bits_alone() {
    let rewrite = Rewrite {
        mask: 0xff00,
        value: 0x1200,
    };
    assert_eq!(rewrite.apply(0xabcd), 0x12cd);
    assert_eq!(Rewrite::NONE.apply(0xabcd), 0xabcd);
}

fn check_lowest<B: Bits>(seeds: (u64, u64)) {
    cases_of(seeds.0, seeds.1, |rng: &mut Rng<B>| {
        let set = small_set(rng);
        let least = headers()
            .into_iter()
            .filter(|&header| set.contains(header))
            .min();
        assert_eq!(Some(set.lowest()), least);
    });
}

/// Each header of P outside B is in one part, and no other header in any.
fn check_carving_of_few_bits<B: Bits>(seeds: (u64, u64)) {
    cases_of(seeds.0, seeds.1, |rng: &mut Rng<B>| {
        let (p, b) = (small_set(rng), small_set(rng));
        let parts: Vec<Set<B>> = p.carve(&b).collect();
        for header in headers() {
            let expected = usize::from(p.contains(header) && !b.contains(header));
            let holding = parts.iter().filter(|part| part.contains(header)).count();
            assert_eq!(holding, expected, "{header:x?} of {p:x?} by {b:x?}");
        }
    });
}

/// Parts are apart, inside P, outside B, in the order of their opposite bits, and
/// fix no other bit than B's.
fn check_carving_of_all_bits<B: Bits>(seeds: (u64, u64)) {
    cases_of(seeds.0, seeds.1, |rng: &mut Rng<B>| {
        let (p, mut b) = (wide_set(rng), wide_set(rng));
        if !rng.once_in(4) {
            b.value = b.value & !p.care | p.value & b.care;
        }
        let parts: Vec<Set<B>> = p.carve(&b).collect();
        if !p.meets(&b) {
            assert_eq!(parts, [p]);
            return;
        }
        let free: Vec<B> = (0..32 * B::WORDS as u32)
            .rev()
            .filter(|&bit| (b.care & !p.care).has(bit))
            .map(B::bit)
            .collect();
        assert_eq!(parts.len(), free.len());
        let mut fixed = B::NONE;
        for (number, (part, &bit)) in parts.iter().zip(&free).enumerate() {
            fixed = fixed | bit;
            assert_eq!(part.care, p.care | fixed);
            assert_eq!(part.value & !fixed, p.value);
            assert_eq!((part.value ^ b.value) & fixed, bit);
            assert!(!part.meets(&b));
            assert!(parts[..number].iter().all(|earlier| !part.meets(earlier)));
        }
    });
}

#[test]
fn nothing_is_left_of_what_b_covers() {
    let p = Set::only(0x1234);
    let b = Set {
        care: 0xff,
        value: 0x34,
    };
    assert_eq!(p.carve(&b).count(), 0);
    assert_eq!(b.carve(&Set::ALL_WILD).count(), 0);
    assert_eq!(b.carve(&b).count(), 0);
}
