//! What an entry does to a header (document 02, 2.5): it may copy or swap the
//! addresses, and then it rewrites.

#[cfg(test)]
mod tests;

use std::fmt;
use std::mem::swap;

use crate::header::{Header, HeaderSet};
use crate::record::Entry;

/// What an entry does with nw_src and nw_dst, a header's first two words, before
/// it rewrites. The numbers are the file's.
#[derive(Clone, Copy, Debug, Default, PartialEq, Eq, Hash)]
#[non_exhaustive]
pub enum Transfer {
    /// Nothing.
    #[default]
    None = 0,
    /// It copies nw_src over nw_dst.
    Copy = 1,
    /// It swaps them.
    Swap = 2,
}

impl Transfer {
    pub(crate) const ALL: [Transfer; 3] = [Transfer::None, Transfer::Copy, Transfer::Swap];

    /// The one with this number in the file, if there is one.
    pub(crate) fn numbered(number: u32) -> Option<Transfer> {
        let mut all = Transfer::ALL.into_iter();
        all.find(|transfer| transfer.number() == number)
    }

    pub(crate) fn number(self) -> u32 {
        self as u32
    }

    /// In a word: `none`, `copy` or `swap`.
    pub fn name(self) -> &'static str {
        match self {
            Transfer::None => "none",
            Transfer::Copy => "copy",
            Transfer::Swap => "swap",
        }
    }

    /// What it makes of a header's words.
    fn of<const N: usize>(self, mut words: [u32; N]) -> [u32; N] {
        if let [nw_src, nw_dst, ..] = &mut words[..] {
            match self {
                Transfer::None => (),
                Transfer::Copy => *nw_dst = *nw_src,
                Transfer::Swap => swap(nw_src, nw_dst),
            }
        }
        words
    }

    /// The headers that it turns into ones of this set, if there are some.
    fn undone<const N: usize>(self, set: &HeaderSet<N>) -> Option<HeaderSet<N>> {
        let swapped = HeaderSet {
            care: Transfer::Swap.of(set.care),
            value: Transfer::Swap.of(set.value),
        };
        match self {
            Transfer::None => Some(*set),
            // What is wanted of nw_dst is wanted of nw_src too, whatever nw_dst was.
            Transfer::Copy => any_nw_dst(*set).intersection(&any_nw_dst(swapped)),
            Transfer::Swap => Some(swapped),
        }
    }
}

/// This set, whatever nw_dst is.
fn any_nw_dst<const N: usize>(mut set: HeaderSet<N>) -> HeaderSet<N> {
    for words in [&mut set.care, &mut set.value] {
        if let [_, nw_dst, ..] = &mut words[..] {
            *nw_dst = 0;
        }
    }
    set
}

impl fmt::Display for Transfer {
    /// What an entry does by it.
    fn fmt(&self, f: &mut fmt::Formatter) -> fmt::Result {
        f.write_str(match self {
            Transfer::None => "does nothing",
            Transfer::Copy => "copies nw_src over nw_dst",
            Transfer::Swap => "swaps nw_src and nw_dst",
        })
    }
}

impl<const N: usize> Entry<N> {
    /// What it makes of a header that it takes: first the transfer, then the
    /// rewrite.
    ///
    /// ```
    /// use mwishovala::{text, Fabric, Header};
    /// let reply = "entry 1 -> 2 priority 5 match any swap set tp_dst=80";
    /// let fabric = Fabric::read(&text::pack(reply)?)?;
    /// let sent_on = fabric.entries[0].action_on(&Header([1, 2, 3, 4]));
    /// assert_eq!(sent_on, Header([2, 1, 80, 4]));
    /// # Ok::<(), Box<dyn std::error::Error>>(())
    /// ```
    pub fn action_on(&self, header: &Header<N>) -> Header<N> {
        self.rewrite.rewritten(&Header(self.transfer.of(header.0)))
    }

    /// The smallest set that has all that it makes of this one's headers. It has
    /// more if addresses are copied: then bits of both are always the same.
    pub(crate) fn action_on_all(&self, set: &HeaderSet<N>) -> HeaderSet<N> {
        let (care, value) = (self.transfer.of(set.care), self.transfer.of(set.value));
        HeaderSet {
            care: std::array::from_fn(|word| care[word] | self.rewrite.care[word]),
            value: self.rewrite.rewritten(&Header(value)).0,
        }
    }

    /// The headers that it turns into ones of this set, if there are some: first
    /// the rewrite is undone, then the transfer. Its match isn't looked at.
    pub(crate) fn action_undone(&self, set: &HeaderSet<N>) -> Option<HeaderSet<N>> {
        self.transfer.undone(&set.undone(&self.rewrite)?)
    }
}
