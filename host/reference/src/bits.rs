//! As many bits as a header has: document 01's four words, or document 02's eight
//! (2.6). What differs between the two versions of a file is said here.
//!
//! Word 0 is the most significant, so the bits from word 0 bit 31 to the last
//! word's bit 0 are the bits from the highest down to 0.
//!
//! What is small is marked to be inlined: tests compile generic code themselves.

use std::fmt::Debug;
use std::hash::Hash;
use std::ops::{BitAnd, BitOr, BitXor, Not};

/// A header, a care mask, a rewrite's mask, or the value of one of these.
pub trait Bits:
    Copy
    + Debug
    + Default
    + Ord
    + Hash
    + BitAnd<Output = Self>
    + BitOr<Output = Self>
    + BitXor<Output = Self>
    + Not<Output = Self>
{
    /// The same bits as words.
    type Words: Words<Bits = Self>;

    const WORDS: usize;
    const NONE: Self;

    /// The version of the files with such headers.
    const VERSION: u32;
    /// Their limits that depend on the version.
    const MOST_ENTRIES: usize;
    const MOST_BYTES: usize;
    /// "8 bits that must be zero in care and mask", if there are any.
    const ZERO_BITS: Self;

    /// From the first of these words.
    fn from_slice(words: &[u32]) -> Self;
    fn to_words(self) -> Self::Words;

    /// The bit with this number alone.
    fn bit(number: u32) -> Self;

    /// The first of these bits, which aren't none.
    fn first(self) -> Self;

    /// The words that every version has, as one number.
    fn old_words(self) -> u128;
    fn with_old_words(self, old: u128) -> Self;

    fn is_none(self) -> bool {
        self == Self::NONE
    }

    fn has(self, number: u32) -> bool {
        !(self & Self::bit(number)).is_none()
    }

    fn from_words(words: Self::Words) -> Self {
        Self::from_slice(words.as_ref())
    }

    /// The number of a bit by its word and its place there, from 31 to 0.
    fn number(word: usize, place: u32) -> u32 {
        32 * (Self::WORDS - 1 - word) as u32 + place
    }
}

/// A header's words, or those of a mask or value.
pub trait Words: Copy + Debug + Default + Eq + AsRef<[u32]> + AsMut<[u32]> {
    type Bits: Bits<Words = Self>;
}

impl Words for [u32; 4] {
    type Bits = u128;
}

impl Words for [u32; 8] {
    type Bits = Wide;
}

/// Version 1: 128 bits.
impl Bits for u128 {
    type Words = [u32; 4];

    const WORDS: usize = 4;
    const NONE: u128 = 0;

    const VERSION: u32 = 1;
    const MOST_ENTRIES: usize = 512;
    const MOST_BYTES: usize = 40_200;
    const ZERO_BITS: u128 = 0;

    #[inline]
    fn from_slice(words: &[u32]) -> u128 {
        words[..4]
            .iter()
            .fold(0, |bits, &word| bits << 32 | u128::from(word))
    }

    #[inline]
    fn to_words(self) -> [u32; 4] {
        [96, 64, 32, 0].map(|shift| (self >> shift) as u32)
    }

    #[inline]
    fn bit(number: u32) -> u128 {
        1 << number
    }

    // Two halves, since shifting 128 bits by a variable is slow.
    #[inline]
    fn first(self) -> u128 {
        let (high, low) = ((self >> 64) as u64, self as u64);
        let first = |half: u64| 1_u64 << (63 - half.leading_zeros());
        match high {
            0 => u128::from(first(low)),
            _ => u128::from(first(high)) << 64,
        }
    }

    #[inline]
    fn old_words(self) -> u128 {
        self
    }

    #[inline]
    fn with_old_words(self, old: u128) -> u128 {
        old
    }
}

/// Version 2: "eight header words: the old four, then dl_src (48 bits), dl_dst
/// (48), dl_type (16), dl_vlan_pcp (8) and 8 bits that must be zero in care and
/// mask, all packed from the high end".
#[derive(Clone, Copy, Debug, Default, PartialEq, Eq, PartialOrd, Ord, Hash)]
pub struct Wide {
    /// Words 0 to 3.
    pub old: u128,
    /// Words 4 to 7.
    pub ethernet: u128,
}

/// An operation on words 0 to 3 and on words 4 to 7.
macro_rules! on_both {
    ($operation:ident $name:ident) => {
        impl $operation for Wide {
            type Output = Wide;

            #[inline]
            fn $name(self, other: Wide) -> Wide {
                Wide {
                    old: self.old.$name(other.old),
                    ethernet: self.ethernet.$name(other.ethernet),
                }
            }
        }
    };
}

on_both!(BitAnd bitand);
on_both!(BitOr bitor);
on_both!(BitXor bitxor);

impl Not for Wide {
    type Output = Wide;

    #[inline]
    fn not(self) -> Wide {
        Wide {
            old: !self.old,
            ethernet: !self.ethernet,
        }
    }
}

impl Bits for Wide {
    type Words = [u32; 8];

    const WORDS: usize = 8;
    const NONE: Wide = Wide {
        old: 0,
        ethernet: 0,
    };

    const VERSION: u32 = 2;
    const MOST_ENTRIES: usize = 400;
    const MOST_BYTES: usize = 59_784;
    const ZERO_BITS: Wide = Wide {
        old: 0,
        ethernet: 0xff,
    };

    #[inline]
    fn from_slice(words: &[u32]) -> Wide {
        Wide {
            old: u128::from_slice(words),
            ethernet: u128::from_slice(&words[4..]),
        }
    }

    #[inline]
    fn to_words(self) -> [u32; 8] {
        let mut words = [0; 8];
        words[..4].copy_from_slice(&self.old.to_words());
        words[4..].copy_from_slice(&self.ethernet.to_words());
        words
    }

    #[inline]
    fn bit(number: u32) -> Wide {
        match number.checked_sub(128) {
            Some(number) => Wide::NONE.with_old_words(1 << number),
            None => Wide {
                old: 0,
                ethernet: 1 << number,
            },
        }
    }

    #[inline]
    fn first(self) -> Wide {
        match self.old {
            0 => Wide {
                old: 0,
                ethernet: self.ethernet.first(),
            },
            old => Wide::NONE.with_old_words(old.first()),
        }
    }

    #[inline]
    fn old_words(self) -> u128 {
        self.old
    }

    #[inline]
    fn with_old_words(self, old: u128) -> Wide {
        Wide { old, ..self }
    }
}
