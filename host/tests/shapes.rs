//! The shapes that later versions need: headers of more words, fields that go
//! from one word to the next, and questions by number.

use std::num::NonZeroU8;

use mwishovala::{limits, raw, Field, Header, HeaderSet, Place, Question, Version};
use reference::random::{cases, Rng};

/// Headers of eight words, with an Ethernet address that begins in one word
/// and ends in the next.
#[test]
fn eight_words() {
    let address = Field::new("dl_dst", 176, 48).unwrap();
    let header = Header([0, 1, 2, 3, 4, 0xaaaa_1234, 0x5678_9abc, 7]);
    assert_eq!(header.get(address), 0x1234_5678_9abc);
    assert_eq!(header.get(Field::NW_PROTO), 3);
    assert_eq!(Header([9; 4]).get(address), 0);
    let only = HeaderSet::only(header);
    let mut near = only;
    near.care[6] = 0xffff_0000;
    near.value[6] = 0x5678_0000;
    assert!(near.contains(&header) && only.is_within(&near) && !near.is_within(&only));
    near.value[6] = 0x5679_0000;
    assert!(!near.contains(&header) && !only.meets(&near));
    assert!(near.is_within(&HeaderSet::ALL_WILD));
    assert_eq!(only.lowest(), header);
}

/// A field's value, bit by bit.
#[test]
fn fields_by_their_bits() {
    cases(12_000_000, 2000, |rng| {
        let words: [u32; 8] = std::array::from_fn(|_| rng.draw() as u32);
        let (first, width) = (rng.below(208), rng.between(1, 48));
        let field = Field::new("some", first, width).unwrap();
        let all: Vec<bool> = words.iter().flat_map(|word| bits(*word)).collect();
        let expected = all[first..first + width]
            .iter()
            .fold(0_u64, |value, &bit| value * 2 + u64::from(bit));
        assert_eq!(Header(words).get(field), expected);
        assert!(expected <= field.full());
    });
    assert_eq!(Field::new("none", 0, 0), None);
    assert_eq!(Field::new("too wide", 0, 49), None);
    assert_eq!(Field::new("too far", usize::MAX, 1), None);
}

fn bits(word: u32) -> [bool; 32] {
    std::array::from_fn(|place| word >> (31 - place) & 1 == 1)
}

/// The seven fields cover the four words, each bit once; the eleven the eight, but
/// for the last eight bits.
#[test]
fn no_bit_is_left_out() {
    fn check<const N: usize>(covered: usize) {
        let fields: Vec<Field> = Field::all_in(Version::of::<N>()).collect();
        let widths = fields.iter().map(|field| field.width());
        assert_eq!(widths.sum::<usize>(), covered);
        cases(12_100_000, 200, |rng: &mut Rng| {
            let header = Header([0; N].map(|_| rng.draw() as u32));
            let bits = fields.iter().fold(Vec::new(), |mut bits, &field| {
                let value = header.get(field);
                bits.extend((0..field.width()).rev().map(|bit| value >> bit & 1 == 1));
                bits
            });
            let mut expected: Vec<bool> =
                header.0.iter().flat_map(|word| self::bits(*word)).collect();
            expected.truncate(covered);
            assert_eq!(bits, expected);
        });
    }
    check::<4>(128);
    check::<8>(248);
}

/// Where document 02 has them: word and bits, from the high end.
#[test]
fn ethernets_fields() {
    let header = Header([
        0,
        0,
        0,
        0,
        0x0102_0304,
        0x0506_a1a2,
        0xa3a4_a5a6,
        0x86dd_0700,
    ]);
    for (field, value) in [
        (Field::DL_SRC, 0x0102_0304_0506),
        (Field::DL_DST, 0xa1a2_a3a4_a5a6),
        (Field::DL_TYPE, 0x86dd),
        (Field::DL_VLAN_PCP, 7),
    ] {
        assert_eq!(header.get(field), value, "{}", field.name());
        assert!(field.is_in(Version::V2) && !field.is_in(Version::V1));
        assert_eq!(Field::named(field.name()), Some(field));
    }
    let care = HeaderSet::only(header).care;
    assert_eq!(
        (care[..7].to_vec(), care[7]),
        (vec![u32::MAX; 7], 0xffff_ff00)
    );
    assert_eq!(HeaderSet::only(Header([0; 4])).care, [u32::MAX; 4]);
}

/// Each number is one question's, and an unknown one stays what it is.
#[test]
fn questions_by_number() {
    for number in 1..=u8::MAX {
        let question = Question::numbered(NonZeroU8::new(number).unwrap());
        assert_eq!(question.number(), number);
        assert_eq!(matches!(question, Question::Unknown(_)), number > 25);
        let place = match number {
            3..=7 => Place::Word,
            16 | 17 => Place::Line,
            22 | 23 => Place::Record,
            24 => Place::Entry,
            _ => Place::Nothing,
        };
        assert_eq!(question.place(), place, "{number}");
    }
}

#[test]
fn limits_are_document_01s() {
    assert_eq!(limits::LEAST_FILE_BYTES, 8);
    assert_eq!(limits::MOST_FILE_BYTES, 40_200);
    let by_version = Version::ALL.map(|version| {
        (
            (version.number(), version.words(), version.most_entries()),
            (version.most_file_bytes(), version.query_numbers()),
            version.answer_words(),
        )
    });
    assert_eq!(
        by_version,
        [
            ((1, 4, 512), (40_200, 11), 24),
            ((2, 8, 400), (59_784, 19), 28)
        ]
    );
    let words: Vec<_> = raw::CALLS.iter().map(|call| call.answer).collect();
    let answers = [
        raw::Answer::Words(24),
        raw::Answer::Finds,
        raw::Answer::Words(24),
        raw::Answer::Words(28),
        raw::Answer::Finds,
        raw::Answer::Words(28),
    ];
    assert_eq!(words, answers);
}
