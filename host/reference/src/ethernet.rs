//! The fields that version 2 adds: "dl_src (48 bits), dl_dst (48), dl_type (16),
//! dl_vlan_pcp (8)".

use std::ops::Range;

use crate::bits::Bits;
use crate::set::Set;

/// A field's bits in document 01's order, from word 0 bit 31 on.
pub type Field = Range<u32>;

pub const DL_SRC: Field = 128..176;
pub const DL_DST: Field = 176..224;
pub const DL_TYPE: Field = 224..240;
pub const DL_VLAN_PCP: Field = 240..248;

/// The headers with this value in a field, or in some bits of it.
pub fn having<B: Bits>(field: Field, value: u64) -> Set<B> {
    let bits = field.rev().map(|place| 32 * B::WORDS as u32 - 1 - place);
    let is_one = |place: usize| value >> place & 1 == 1;
    bits.enumerate()
        .fold(Set::ALL_WILD, |set, (place, bit)| Set {
            care: set.care | B::bit(bit),
            value: match is_one(place) {
                true => set.value | B::bit(bit),
                false => set.value,
            },
        })
}
