//! Header sets: document 01, "Header sets", on headers of either version.

use crate::bits::Bits;

/// A header of version 1: 128 bits.
pub type Header = u128;

/// Four words as one number.
pub fn from_words(words: [u32; 4]) -> Header {
    Bits::from_words(words)
}

/// One number as four words.
pub fn to_words(header: Header) -> [u32; 4] {
    Bits::to_words(header)
}

/// "A care mask of four words and a value of four words", or of eight each.
/// Value bits outside care are 0; a set is never empty.
#[derive(Clone, Copy, Debug, PartialEq, Eq, Hash)]
pub struct Set<B = Header> {
    pub care: B,
    pub value: B,
}

impl<B: Bits> Set<B> {
    pub const ALL_WILD: Set<B> = Set {
        care: B::NONE,
        value: B::NONE,
    };

    /// From care and value as words.
    pub fn of_words(care: B::Words, value: B::Words) -> Set<B> {
        Set {
            care: B::from_words(care),
            value: B::from_words(value),
        }
    }

    /// The headers that have this value in one word where the mask has a bit.
    pub fn of_word(word: usize, mask: u32, value: u32) -> Set<B> {
        let of = |bits| {
            let mut words = B::Words::default();
            words.as_mut()[word] = bits;
            words
        };
        Set::of_words(of(mask), of(value & mask))
    }

    /// The set with this header alone.
    pub fn only(header: B) -> Set<B> {
        Set {
            care: !B::ZERO_BITS,
            value: header,
        }
    }

    /// Whether the value bits outside care are 0, and in care the "bits that must be
    /// zero".
    pub fn is_proper(&self) -> bool {
        (self.value & !self.care | self.care & B::ZERO_BITS).is_none()
    }

    /// "A header is in it if it equals the value on every care bit."
    pub fn contains(&self, header: B) -> bool {
        ((header ^ self.value) & self.care).is_none()
    }

    /// Whether the intersection has a header.
    pub fn meets(&self, other: &Set<B>) -> bool {
        ((self.value ^ other.value) & self.care & other.care).is_none()
    }

    /// "Empty if the two values differ on a bit that both care for; else care
    /// is the OR, value the OR."
    pub fn intersect(&self, other: &Set<B>) -> Option<Set<B>> {
        self.meets(other).then_some(Set {
            care: self.care | other.care,
            value: self.value | other.value,
        })
    }

    /// "Carving P by B: if they don't intersect, P alone. Else, over the bits
    /// from first to last that B cares for and P doesn't, one part each."
    pub fn carve(&self, by: &Set<B>) -> impl Iterator<Item = Set<B>> {
        let (whole, split) = match self.meets(by) {
            true => (None, Some(self.split(by))),
            false => (Some(*self), None),
        };
        whole.into_iter().chain(split.into_iter().flatten())
    }

    /// Carving by a set that this one meets.
    pub fn split(&self, by: &Set<B>) -> Split<B> {
        Split {
            stem: *self,
            by: by.value,
            free: by.care & !self.care,
        }
    }

    /// Care and value, each changed in the same way.
    pub(crate) fn map<C>(&self, change: impl Fn(B) -> C) -> Set<C> {
        Set {
            care: change(self.care),
            value: change(self.value),
        }
    }

    /// The lowest header: "wild bits 0".
    pub fn lowest(&self) -> B {
        self.value
    }
}

/// The parts of P carved by a B that it meets: "P with the earlier such bits
/// as in B and this one opposite".
#[derive(Clone, Debug)]
pub struct Split<B> {
    /// P with the bits gone over so far as in B.
    stem: Set<B>,
    /// B's value.
    by: B,
    /// The bits still to go over: B cares for them and P doesn't.
    free: B,
}

impl<B: Bits> Iterator for Split<B> {
    type Item = Set<B>;

    // Not inlined, it costs the whole trace eight percent.
    #[inline(always)]
    fn next(&mut self) -> Option<Set<B>> {
        if self.free.is_none() {
            return None;
        }
        let bit = self.free.first();
        self.free = self.free ^ bit;
        self.stem.care = self.stem.care | bit;
        let part = Set {
            care: self.stem.care,
            value: self.stem.value | (!self.by & bit),
        };
        self.stem.value = self.stem.value | self.by & bit;
        Some(part)
    }
}

/// "Masked bits become the value's, others stay." Value bits outside the mask
/// are 0.
#[derive(Clone, Copy, Debug, PartialEq, Eq, Hash)]
pub struct Rewrite<B = Header> {
    pub mask: B,
    pub value: B,
}

impl<B: Bits> Rewrite<B> {
    pub const NONE: Rewrite<B> = Rewrite {
        mask: B::NONE,
        value: B::NONE,
    };

    /// The rewrite to what this set's headers have in common.
    pub fn to(set: Set<B>) -> Rewrite<B> {
        Rewrite {
            mask: set.care,
            value: set.value,
        }
    }

    /// The headers that have what it writes.
    pub fn written(&self) -> Set<B> {
        Set {
            care: self.mask,
            value: self.value,
        }
    }

    pub fn apply(&self, header: B) -> B {
        header & !self.mask | self.value & self.mask
    }

    /// "Empty if T cares for a masked bit and wants another value; else T with
    /// all masked bits wild."
    pub fn undo(&self, wanted: &Set<B>) -> Option<Set<B>> {
        let clash = (wanted.value ^ self.value) & wanted.care & self.mask;
        clash
            .is_none()
            .then_some(wanted.map(|bits| bits & !self.mask))
    }
}
