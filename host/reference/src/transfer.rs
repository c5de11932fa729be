//! What an entry does with the addresses before its rewrite: document 02's
//! reply entries (2.5). Words 0 and 1 alone are moved, in either version.

use crate::bits::Bits;
use crate::set::Set;

/// Word 0 of the four that every version has.
const NW_SRC: u128 = 0xffff_ffff << 96;
/// Word 1.
const NW_DST: u128 = 0xffff_ffff << 64;

/// "1 to copy nw_src over nw_dst or 2 to swap them, before the rewrite."
#[derive(Clone, Copy, Debug, PartialEq, Eq, Hash)]
pub enum Transfer {
    None = 0,
    Copy = 1,
    Swap = 2,
}

impl Transfer {
    /// The transfer of this number, if there is one: "values above 2" are refused.
    pub fn numbered(number: u32) -> Option<Transfer> {
        let all = [Transfer::None, Transfer::Copy, Transfer::Swap];
        all.into_iter().find(|&transfer| transfer as u32 == number)
    }

    pub fn apply<B: Bits>(self, header: B) -> B {
        let old = header.old_words();
        let src_in_dst = (old & NW_SRC) >> 32;
        let dst_in_src = (old & NW_DST) << 32;
        header.with_old_words(match self {
            Transfer::None => old,
            Transfer::Copy => old & !NW_DST | src_in_dst,
            Transfer::Swap => old & !NW_DST & !NW_SRC | src_in_dst | dst_in_src,
        })
    }

    /// "Undoing it may join two wanted bits into one and be empty if they
    /// disagree": after a copy, what is wanted of nw_dst is wanted of the old
    /// nw_src, and the old nw_dst may be anything.
    pub fn undo<B: Bits>(self, wanted: &Set<B>) -> Option<Set<B>> {
        match self {
            Transfer::None => Some(*wanted),
            Transfer::Copy => {
                let of_the_others =
                    wanted.map(|bits| bits.with_old_words(bits.old_words() & !NW_DST));
                let of_the_copy =
                    wanted.map(|bits| B::NONE.with_old_words((bits.old_words() & NW_DST) << 32));
                of_the_others.intersect(&of_the_copy)
            }
            // Swapping once more brings them back.
            Transfer::Swap => Some(wanted.map(|bits| self.apply(bits))),
        }
    }
}
