//! Damage at random: it may break any question or none.

use super::layout::File;
use super::{Damage, Damaged};
use crate::bits::Bits;
use crate::file::{to_le_bytes, to_le_words};
use crate::random::source::Rng;

fn at_random(bytes: Vec<u8>) -> Damaged {
    let refusal = None;
    Damaged { bytes, refusal }
}

/// One of the start's bits above the count: that which chooses between OpenFlow 1.0
/// and 1.3, or one without which it is no start of the one version.
pub(super) fn start_flipped<B: Bits>(bytes: &[u8], rng: &mut Rng<B>) -> Damaged {
    let mut words = to_le_words(bytes);
    words[0] ^= 1 << rng.between(16, 31);
    at_random(to_le_bytes(&words))
}

pub(super) fn flipped<B: Bits>(bytes: &[u8], flips: u8, rng: &mut Rng<B>) -> Damaged {
    let mut bytes = bytes.to_vec();
    let place = rng.below(bytes.len());
    if let Some(byte) = bytes.get_mut(place) {
        *byte ^= flips;
    }
    at_random(bytes)
}

pub(super) fn words_changed<B: Bits>(how: Damage, bytes: &[u8], rng: &mut Rng<B>) -> Damaged {
    let mut words = to_le_words(bytes);
    let (one, other) = (rng.below(words.len()), rng.below(words.len()));
    match how {
        Damage::SwappedWords => words.swap(one, other),
        _ => words[one] = rng.draw() as u32,
    }
    at_random(to_le_bytes(&words))
}

pub(super) fn record_changed<B: Bits>(how: Damage, mut file: File, rng: &mut Rng<B>) -> Damaged {
    let record = rng.between(1, file.end());
    match how {
        Damage::RecordTwice => file.records.insert(record, file.records[record].clone()),
        _ => drop(file.records.remove(record)),
    }
    at_random(file.counted())
}
