//! Answers that the proved library doesn't give are none.

use super::{accepted, answer, make};
use crate::limits::MOST_HOPS;
use crate::query::Query;
use crate::raw;
use crate::refusal::{Question, Refusal};
use crate::run::{Fate, Run};
use crate::verdict::Verdict;

const SUCCESS: u64 = 24 * 256;

/// What is made of a call that gives this code and leaves these words.
fn answered(code: u64, words: [u32; 24]) -> Result<Vec<u32>, Refusal> {
    answer(&[], &Query::all_wild(1), |area| {
        for (bytes, word) in area.chunks_exact_mut(4).zip(words) {
            bytes.copy_from_slice(&word.to_le_bytes());
        }
        code
    })
}

/// Every number but 0 is a no, also those that no document has.
#[test]
fn no_number_but_0_is_a_success() {
    for number in 1..=255 {
        for place in [0, 24, u64::MAX / 256] {
            let code = place * 256 + number;
            let refusal = make(&[], &Query::all_wild(1), &mut [], |_| code).unwrap_err();
            assert_eq!(u64::from(refusal.question.number()), number);
            assert_eq!(refusal.place, place);
            assert!(answered(code, [0; 24]).is_err());
        }
    }
    assert!(matches!(
        answered(26, [0; 24]).unwrap_err().question,
        Question::Unknown(_)
    ));
}

/// A file is accepted by the one no that comes after its own questions.
#[test]
fn accepted_by_the_hop_limit_alone() {
    for number in 0..=255 {
        let asked = make(&[], &Query::all_wild(1), &mut [], |_| number);
        assert_eq!(accepted(asked).is_ok(), number == 9, "{number}");
    }
}

/// A success with another number of words is none.
#[test]
fn as_many_words_as_the_call_has() {
    assert!(answered(SUCCESS, [0; 24]).is_ok());
    for words in [0, 1, 23, 25, u64::MAX / 256] {
        let refusal = answered(words * 256, [0; 24]).unwrap_err();
        assert_ne!(refusal.question.number(), 0);
    }
}

/// An answer with a port, hops, header and two entries.
const TWO_HOPS: [u32; 24] = {
    let mut words = [0; 24];
    (words[0], words[2], words[3]) = (1, 4095, 2);
    (words[8], words[9]) = (511, 0);
    words
};

/// 'Isolated' has 0 from word 2 on, and nothing else is 'isolated'.
#[test]
fn words_that_are_no_verdict() {
    let read = Verdict::<4>::read;
    assert_eq!(
        read(&[0; raw::VERDICT_WORDS]),
        Ok(Verdict::Isolated { units: 0 })
    );
    assert!(matches!(
        read(&TWO_HOPS),
        Ok(Verdict::Reached { port: 4095, .. })
    ));
    for place in 2..raw::VERDICT_WORDS {
        let mut words = [0; raw::VERDICT_WORDS];
        words[place] = 1;
        assert!(read(&words).is_err(), "word {place}");
    }
    for (place, word) in wrong_words().into_iter().chain([(0, 2), (0, u32::MAX)]) {
        let mut words = TWO_HOPS;
        words[place] = word;
        assert!(read(&words).is_err(), "word {place} is {word}");
    }
}

#[test]
fn words_that_are_no_run() {
    let read = Run::<4>::read;
    assert!(read(&TWO_HOPS).is_ok());
    for (place, word) in wrong_words().into_iter().chain([(0, 5), (0, 260), (1, 1)]) {
        let mut words = TWO_HOPS;
        words[place] = word;
        assert!(read(&words).is_err(), "word {place} is {word}");
    }
}

/// An answer of version 2 has four words more, and entries up to 399.
#[test]
fn words_of_version_2() {
    let mut words = [0; raw::VERDICT_WORDS_V2];
    (words[0], words[2], words[3]) = (1, 4095, 2);
    (words[11], words[12], words[13]) = (0x0806_0700, 399, 1);
    let Ok(Verdict::<8>::Reached {
        header, entries, ..
    }) = Verdict::read(&words)
    else {
        panic!("it is reached");
    };
    assert_eq!((header.0[7], &entries[..]), (0x0806_0700, &[399, 1][..]));
    assert_eq!(Run::<8>::read(&words).unwrap().header, header);
    for (place, word) in [(12, 400), (13, 511), (14, 1), (27, 1), (3, 17)] {
        let mut wrong = words;
        wrong[place] = word;
        assert!(
            Verdict::<8>::read(&wrong).is_err(),
            "word {place} is {word}"
        );
        assert!(Run::<8>::read(&wrong).is_err(), "word {place} is {word}");
    }
    assert!(Verdict::<4>::read(&words).is_err());
    assert!(Verdict::<8>::read(&TWO_HOPS).is_err());
}

#[test]
fn each_fate_has_its_number() {
    let fates = [
        Fate::Left,
        Fate::Dropped,
        Fate::Lost,
        Fate::Travelling,
        Fate::Tied,
    ];
    for (number, fate) in (0..).zip(fates) {
        let mut words = TWO_HOPS;
        words[0] = number;
        assert_eq!(Run::<4>::read(&words).unwrap().fate, fate, "{number}");
    }
}

/// No such port, too many hops, no such entry, an entry that wasn't taken.
fn wrong_words() -> Vec<(usize, u32)> {
    vec![
        (2, 0),
        (2, 4096),
        (2, 65_537),
        (3, MOST_HOPS + 1),
        (3, u32::MAX),
        (8, 512),
        (9, 65_536),
        (10, 1),
        (23, 1),
    ]
}
