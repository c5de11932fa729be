//! Header sets over a few bits, for tests that look at every header.

use crate::action::Transfer;
use crate::header::{Header, HeaderSet};
use crate::record::Entry;

/// Two bits of each address, and one of neither.
const BITS: [(usize, u32); 5] = [(0, 1 << 31), (0, 2), (1, 1 << 31), (1, 2), (3, 1 << 7)];

/// Every header whose other bits are 0.
pub(crate) fn headers() -> impl Iterator<Item = Header> {
    (0..1 << BITS.len()).map(|number: usize| {
        let mut words = [0; 4];
        for (place, (word, bit)) in BITS.into_iter().enumerate() {
            words[word] |= if number >> place & 1 == 1 { bit } else { 0 };
        }
        Header(words)
    })
}

/// Each of these bits is 0, 1 or wild, and all others are wild.
pub(crate) fn sets() -> impl Iterator<Item = HeaderSet> {
    (0..3_usize.pow(BITS.len() as u32)).map(|number| {
        let mut set = HeaderSet::ALL_WILD;
        for (place, (word, bit)) in (0..).zip(BITS) {
            let (care, value) = [(0, 0), (bit, 0), (bit, bit)][number / 3_usize.pow(place) % 3];
            set.care[word] |= care;
            set.value[word] |= value;
        }
        set
    })
}

/// This set with all other bits 0: it has as many headers as can be looked at.
pub(crate) fn without_others(mut set: HeaderSet) -> HeaderSet {
    let mut others = [u32::MAX; 4];
    for (word, bit) in BITS {
        others[word] &= !bit;
    }
    for (care, others) in set.care.iter_mut().zip(others) {
        *care |= others;
    }
    set
}

/// What an entry makes of a header, bit by bit: copied or swapped, and then
/// rewritten.
pub(crate) fn by_hand(entry: &Entry, header: &Header) -> Header {
    let Header([nw_src, nw_dst, ports, others]) = *header;
    let (nw_src, nw_dst) = match entry.transfer {
        Transfer::None => (nw_src, nw_dst),
        Transfer::Copy => (nw_src, nw_src),
        Transfer::Swap => (nw_dst, nw_src),
    };
    let mut words = [nw_src, nw_dst, ports, others];
    for (word, bit) in BITS {
        if entry.rewrite.care[word] & bit != 0 {
            words[word] = words[word] & !bit | entry.rewrite.value[word] & bit;
        }
    }
    Header(words)
}
