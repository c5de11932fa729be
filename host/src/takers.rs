//! Which entries may take a packet: of those that match, any of the highest
//! priority. Where several may, one is chosen, afresh at each hop.

#[cfg(test)]
mod tests;

use crate::fabric::Fabric;
use crate::header::Header;
use crate::record::Entry;

/// A hop of a way: which entry takes the packet, and which others might.
#[derive(Clone, Debug, PartialEq, Eq)]
#[non_exhaustive]
pub struct Hop<const N: usize = 4> {
    /// The number of the entry that takes it.
    pub number: u16,
    /// That entry.
    pub entry: Entry<N>,
    /// The header that arrives there.
    pub header: Header<N>,
    /// All entries that may take it there, by their numbers, rising.
    pub takers: Vec<u16>,
}

impl<const N: usize> Hop<N> {
    /// The other entries that might take it, which have the same priority.
    pub fn equals(&self) -> Vec<u16> {
        let takers = self.takers.iter().copied();
        takers.filter(|&taker| taker != self.number).collect()
    }
}

impl<const N: usize> Fabric<N> {
    /// The entries that may take this header at this in-port, by their numbers,
    /// rising: their match holds it, and none whose match holds it beats them.
    ///
    /// ```
    /// use mwishovala::{text, Fabric, Header};
    /// let fabric = Fabric::read(&text::pack("
    ///     edge 1 group 7 admits any
    ///     entry 1 -> 2 priority 10 match tp_dst=80
    ///     entry 1 -> 3 priority 10 match any
    ///     entry 1 -> drop priority 20 match nw_proto=17
    /// ")?)?;
    /// assert_eq!(fabric.takers(1, &Header([0, 0, 80, 6])), [0, 1]);
    /// assert_eq!(fabric.takers(1, &Header([0, 0, 81, 6])), [1]);
    /// assert_eq!(fabric.takers(1, &Header([0, 0, 80, 17])), [2]);
    /// # Ok::<(), Box<dyn std::error::Error>>(())
    /// ```
    pub fn takers(&self, in_port: u16, header: &Header<N>) -> Vec<u16> {
        let holds = |entry: &Entry<N>| entry.in_port == in_port && entry.matching.contains(header);
        let holders: Vec<(u16, &Entry<N>)> =
            self.numbered().filter(|(_, entry)| holds(entry)).collect();
        let beaten = |entry: &Entry<N>| holders.iter().any(|(_, other)| other.beats(entry));
        let takers = holders.iter().filter(|(_, entry)| !beaten(entry));
        takers.map(|(number, _)| *number).collect()
    }

    /// The way by these entries, hop by hop, of a packet that comes to the first
    /// of them with this header; at each, who else might take it. None if the
    /// fabric doesn't have all these entries.
    ///
    /// ```
    /// use mwishovala::{text, verdict, Fabric, Query, Verdict};
    /// let file = text::pack("
    ///     edge 1 group 7 admits any
    ///     edge 2 group 9 admits any
    ///     entry 1 -> drop priority 10 match any
    ///     entry 1 -> 2 priority 10 match tp_dst=80
    /// ")?;
    /// let Verdict::Reached { header, entries, .. } = verdict(&file, &Query::all_wild(2))? else {
    ///     panic!("it is reached");
    /// };
    /// let hops = Fabric::read(&file)?.hops(&header, &entries).unwrap();
    /// assert_eq!((hops[0].number, hops[0].equals()), (1, vec![0]));
    /// # Ok::<(), Box<dyn std::error::Error>>(())
    /// ```
    pub fn hops(&self, header: &Header<N>, way: &[u16]) -> Option<Vec<Hop<N>>> {
        let mut here = *header;
        let hop = |&number: &u16| {
            let entry = *self.entries.get(usize::from(number))?;
            let header = here;
            here = entry.action_on(&header);
            Some(Hop {
                number,
                entry,
                header,
                takers: self.takers(entry.in_port, &header),
            })
        };
        way.iter().map(hop).collect()
    }

    /// Where a packet that starts at this port with this header leaves by this
    /// way, and with which header. None if it can't take it: an entry that may
    /// not take it where it is, or a last one from which a link leads on.
    pub(crate) fn exit_by(
        &self,
        port: u16,
        header: &Header<N>,
        way: &[u16],
    ) -> Option<(u16, Header<N>)> {
        let hops = self.hops(header, way)?;
        let mut in_port = Some(port);
        for hop in &hops {
            if in_port != Some(hop.entry.in_port) || !hop.takers.contains(&hop.number) {
                return None;
            }
            in_port = self.link_from(hop.entry.out_port).map(|link| link.to);
        }
        match (hops.last(), in_port) {
            (Some(last), None) => {
                let left_with = last.entry.action_on(&last.header);
                Some((last.entry.out_port, left_with))
            }
            _ => None,
        }
    }
}
