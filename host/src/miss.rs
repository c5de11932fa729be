//! Where no entry takes a packet: a table miss.

#[cfg(test)]
mod tests;

use crate::action::Transfer;
use crate::fabric::Fabric;
use crate::finds::Find;
use crate::header::HeaderSet;
use crate::record::Entry;
use crate::run::{Fate, Run};

/// Where the packets of a find are lost, and what they are then.
#[derive(Clone, Copy, Debug, PartialEq, Eq)]
#[non_exhaustive]
pub struct Miss<const N: usize = 4> {
    /// The in-port where no entry takes them.
    pub in_port: u16,
    /// The smallest set that has all their headers there.
    pub set: HeaderSet<N>,
    /// Whether it has no others. It has some if nw_src was copied over nw_dst, and
    /// bits of both are wild that are always the same.
    pub exact: bool,
}

impl<const N: usize> Fabric<N> {
    /// Where the packets of a find of [`Query::lost`](crate::Query::lost) are lost:
    /// where its way leads, or where they start if it has no hop. None if this
    /// fabric doesn't have the way's entries, or its last leads nowhere. It is
    /// followed here, and is not part of what is proved.
    ///
    /// ```
    /// use mwishovala::{list, text, Fabric, Query};
    /// let file = text::pack("
    ///     edge 1 group 7 admits any
    ///     link 10 -> 11
    ///     entry 1 -> 10 priority 10 match any set dl_vlan=5
    ///     entry 11 -> 2 priority 10 match dl_vlan=6
    /// ")?;
    /// let mut area = [0; 1024];
    /// let finds: Vec<_> = list(&file, &mut area, &Query::lost())?.collect();
    /// assert_eq!((finds.len(), finds[0].port, finds[0].hops), (1, 1, 1));
    /// let miss = Fabric::read(&file)?.miss(&finds[0]).unwrap();
    /// assert_eq!((miss.in_port, miss.set.to_string()), (11, "dl_vlan=5".into()));
    /// # Ok::<(), Box<dyn std::error::Error>>(())
    /// ```
    pub fn miss(&self, find: &Find<N>) -> Option<Miss<N>> {
        let entries = find.entries.iter();
        let way: Option<Vec<&Entry<N>>> = entries
            .map(|&number| self.entries.get(usize::from(number)))
            .collect();
        let way = way?;
        let in_port = match way.last() {
            Some(last) => self.link_from(last.out_port)?.to,
            None => find.port,
        };
        let then = |set: HeaderSet<N>, entry: &&Entry<N>| entry.action_on_all(&set);
        let set = way.iter().fold(find.set, then);
        let wild = !set.care.first().copied().unwrap_or_default();
        Some(Miss {
            in_port,
            set,
            exact: alike(&way) & wild == 0,
        })
    }

    /// Whether no entry took a run's packet where it ended: it is lost or, under
    /// OpenFlow 1.3, dropped. An entry that drops a packet takes it.
    ///
    /// ```
    /// use mwishovala::{run, text, Fabric, Fate, Header};
    /// let file = text::pack("
    ///     openflow 1.3
    ///     edge 1 group 7 admits any
    ///     entry 1 -> drop priority 10 match tp_dst=80
    /// ")?;
    /// let fabric = Fabric::read(&file)?;
    /// for (tp_dst, missed) in [(80, false), (81, true)] {
    ///     let run = run(&file, 1, Header([0, 0, tp_dst, 6]), 16)?;
    ///     assert_eq!((run.fate, fabric.missed(&run)), (Fate::Dropped, missed));
    /// }
    /// # Ok::<(), Box<dyn std::error::Error>>(())
    /// ```
    pub fn missed(&self, run: &Run<N>) -> bool {
        let last = run.entries.last();
        let last = last.and_then(|&number| self.entries.get(usize::from(number)));
        match run.fate {
            Fate::Lost => true,
            Fate::Dropped => last.is_none_or(|entry| entry.out_port != 0),
            _ => false,
        }
    }
}

/// The bits of an address that nw_src and nw_dst have from the same bit of the
/// start, behind this way.
fn alike<const N: usize>(way: &[&Entry<N>]) -> u32 {
    way.iter().fold(0, |alike, entry| {
        let alike = match entry.transfer {
            Transfer::Copy => u32::MAX,
            Transfer::None | Transfer::Swap => alike,
        };
        let addresses = entry.rewrite.care.iter().take(2);
        alike & !addresses.fold(0, |written, word| written | word)
    })
}
