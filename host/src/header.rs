//! Headers and header sets, as so many words each: four in files of version 1,
//! eight in those of version 2.

use crate::field::Field;
use crate::version::Version;

/// A header: 128 bits in four words, or 256 in eight.
#[derive(Clone, Copy, Debug, PartialEq, Eq, Hash)]
pub struct Header<const N: usize = 4>(pub [u32; N]);

impl<const N: usize> Default for Header<N> {
    fn default() -> Header<N> {
        Header([0; N])
    }
}

impl<const N: usize> Header<N> {
    /// The field's value; bits of it past the header's words are 0.
    pub fn get(&self, field: Field) -> u64 {
        field.get(&self.0)
    }
}

/// The headers that equal the value on every care bit.
///
/// Written and read in words:
///
/// ```
/// use mwishovala::{Field, Header, HeaderSet};
/// let web: HeaderSet = "nw_dst=10.0.0.0/24,tp_dst=80".parse()?;
/// assert_eq!(web.to_string(), "nw_dst=10.0.0.0/24,tp_dst=80");
/// assert!(web.contains(&Header([7, 0x0a00_0003, 80, 0])));
/// assert!(!web.contains(&Header([7, 0x0a00_0103, 80, 0])));
/// assert_eq!(HeaderSet::<4>::ALL_WILD.to_string(), "any");
/// # Ok::<(), mwishovala::text::Wrong>(())
/// ```
#[derive(Clone, Copy, Debug, PartialEq, Eq, Hash)]
pub struct HeaderSet<const N: usize = 4> {
    /// The bits that a header is held to.
    pub care: [u32; N],
    /// Bits outside care are 0, or question 5 or 10 gets a no.
    pub value: [u32; N],
}

impl<const N: usize> HeaderSet<N> {
    /// Every header; as a rewrite, the one that changes nothing.
    pub const ALL_WILD: HeaderSet<N> = HeaderSet {
        care: [0; N],
        value: [0; N],
    };

    /// The set with this header alone, which cares for every bit of a field.
    pub fn only(header: Header<N>) -> HeaderSet<N> {
        HeaderSet {
            care: fields(),
            value: header.0,
        }
    }

    /// The same set in headers of another number of words: wild in those that
    /// are more. None if it cares for a word, or has a value there, that these
    /// headers don't have.
    pub fn resized<const M: usize>(&self) -> Option<HeaderSet<M>> {
        Some(HeaderSet {
            care: resized(&self.care)?,
            value: resized(&self.value)?,
        })
    }

    /// Whether this header is in it.
    pub fn contains(&self, header: &Header<N>) -> bool {
        self.differing(&header.0, &[u32::MAX; N]) == [0; N]
    }

    /// Whether some header is in both.
    pub fn meets(&self, other: &HeaderSet<N>) -> bool {
        self.differing(&other.value, &other.care) == [0; N]
    }

    /// Whether every header of this set is in the other one too.
    pub fn is_within(&self, other: &HeaderSet<N>) -> bool {
        let cared_for = (0..N).all(|word| other.care[word] & !self.care[word] == 0);
        cared_for && self.meets(other)
    }

    /// The headers in both, if there are some.
    pub fn intersection(&self, other: &HeaderSet<N>) -> Option<HeaderSet<N>> {
        self.meets(other).then(|| HeaderSet {
            care: std::array::from_fn(|word| self.care[word] | other.care[word]),
            value: std::array::from_fn(|word| self.value[word] | other.value[word]),
        })
    }

    /// The headers that this rewrite turns into ones of this set, if there are
    /// some.
    pub(crate) fn undone(&self, rewrite: &HeaderSet<N>) -> Option<HeaderSet<N>> {
        self.meets(rewrite).then(|| HeaderSet {
            care: std::array::from_fn(|word| self.care[word] & !rewrite.care[word]),
            value: std::array::from_fn(|word| self.value[word] & !rewrite.care[word]),
        })
    }

    /// What this set, as a rewrite, makes of a header.
    pub(crate) fn rewritten(&self, header: &Header<N>) -> Header<N> {
        let kept = |word: usize| header.0[word] & !self.care[word];
        Header(std::array::from_fn(|word| kept(word) | self.value[word]))
    }

    /// This set without the other one's headers: document 01's parts, in order.
    pub(crate) fn carved(&self, by: &HeaderSet<N>) -> impl Iterator<Item = HeaderSet<N>> {
        let (whole, by, meets) = (*self, *by, self.meets(by));
        let free = (0..32 * N).filter(move |&bit| {
            let (word, mask) = place_of(bit);
            meets && by.care[word] & !whole.care[word] & mask != 0
        });
        let mut rest = whole;
        let parts = free.map(move |bit| {
            let (word, mask) = place_of(bit);
            let mut part = rest;
            part.care[word] |= mask;
            part.value[word] |= !by.value[word] & mask;
            rest.care[word] |= mask;
            rest.value[word] |= by.value[word] & mask;
            part
        });
        (!meets).then_some(whole).into_iter().chain(parts)
    }

    /// The lowest header: wild bits 0.
    pub fn lowest(&self) -> Header<N> {
        Header(self.value)
    }

    /// The value bits outside care.
    pub(crate) fn stray(&self) -> [u32; N] {
        std::array::from_fn(|word| self.value[word] & !self.care[word])
    }

    /// The bits cared for that no field has.
    pub(crate) fn cared_past_fields(&self) -> [u32; N] {
        let fields = fields::<N>();
        std::array::from_fn(|word| self.care[word] & !fields[word])
    }

    /// The bits that both care for and that have different values.
    fn differing(&self, value: &[u32; N], care: &[u32; N]) -> [u32; N] {
        std::array::from_fn(|word| (self.value[word] ^ value[word]) & self.care[word] & care[word])
    }
}

/// The bits that fields of so many words have.
fn fields<const N: usize>() -> [u32; N] {
    let mut bits = [0; N];
    for field in Field::all_in(Version::of::<N>()) {
        // The field is in these words, so nothing is refused.
        let _ = field.add(&mut bits, field.full());
    }
    bits
}

/// These words, and behind them 0; none if one that isn't 0 would be left out.
fn resized<const N: usize, const M: usize>(words: &[u32; N]) -> Option<[u32; M]> {
    let (kept, left_out) = words.split_at(N.min(M));
    let mut resized = [0; M];
    resized[..kept.len()].copy_from_slice(kept);
    left_out.iter().all(|&word| word == 0).then_some(resized)
}

/// The word of a bit, which is counted from word 0 bit 31, and its mask there.
pub(crate) fn place_of(bit: usize) -> (usize, u32) {
    (bit / 32, 1 << (31 - bit % 32))
}
