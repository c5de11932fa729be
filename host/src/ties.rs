//! Where entries of the same priority leave a choice to the switch.

use crate::equals::Equals;
use crate::fabric::Fabric;
use crate::header::{Header, HeaderSet};
use crate::record::Entry;

/// The most parts that are looked at for one pair of entries. What a few dozen
/// entries of a higher priority leave of a set may have any number of them.
pub const MOST_PARTS: usize = 1024;

/// Two entries of the same in-port and priority that might take the same header:
/// both match it, and no entry that beats them does.
#[derive(Clone, Copy, Debug, PartialEq, Eq)]
#[non_exhaustive]
pub struct Tie<const N: usize = 4> {
    /// Their numbers, rising.
    pub entries: [u16; 2],
    /// Where both take packets in.
    pub in_port: u16,
    /// The priority of both.
    pub priority: u16,
    /// Whether both do the same: the same out-port, transfer and rewrite.
    pub same: bool,
    /// A header that either of them might take. None if more than
    /// [`MOST_PARTS`] have to be looked at to say whether there is one: then they
    /// may tie.
    pub header: Option<Header<N>>,
}

impl<const N: usize> Fabric<N> {
    /// The ties that matter, in file order. Whether a packet ever comes to them
    /// isn't asked.
    ///
    /// ```
    /// use mwishovala::{text, Fabric, Header};
    /// let fabric = Fabric::read(&text::pack("
    ///     entry 1 -> drop priority 10 match nw_proto=6
    ///     entry 1 -> 2 priority 10 match tp_dst=80
    ///     entry 1 -> 3 priority 10 match nw_proto=17,tp_dst=81
    /// ")?)?;
    /// let [tie] = fabric.ties()[..] else { panic!("there is one") };
    /// assert_eq!(tie.entries, [0, 1]);
    /// assert_eq!(tie.header, Some(Header([0, 0, 80, 6])));
    /// # Ok::<(), Box<dyn std::error::Error>>(())
    /// ```
    pub fn ties(&self) -> Vec<Tie<N>> {
        let does = |entry: &Entry<N>| (entry.out_port, entry.transfer, entry.rewrite);
        let mut ties = Vec::new();
        for [(number, entry), (other, equal)] in Equals::of(self).pairs() {
            let header = match self.tied_header(entry, equal) {
                Ok(None) => continue,
                Ok(header) => header,
                Err(TooManyParts) => None,
            };
            ties.push(Tie {
                entries: [number, other],
                in_port: entry.in_port,
                priority: entry.priority,
                same: does(entry) == does(equal),
                header,
            });
        }
        ties
    }

    /// A header that both match and none that beats them does, if there is one.
    fn tied_header(
        &self,
        entry: &Entry<N>,
        equal: &Entry<N>,
    ) -> Result<Option<Header<N>>, TooManyParts> {
        let beaters = self.beaters(entry).map(|beater| beater.matching);
        match entry.matching.intersection(&equal.matching) {
            Some(common) => outside(common, beaters.collect()),
            None => Ok(None),
        }
    }
}

/// Whether there is one isn't known.
struct TooManyParts;

/// A header of this set that is in none of these, if there is one.
fn outside<const N: usize>(
    set: HeaderSet<N>,
    mut these: Vec<HeaderSet<N>>,
) -> Result<Option<Header<N>>, TooManyParts> {
    // The widest first: they leave the fewest parts.
    these.sort_by_key(|other| other.care.map(u32::count_ones).iter().sum::<u32>());
    // Parts, and how many of these each is known to lie outside.
    let mut open = vec![(set, 0)];
    let mut looked_at = 0;
    while let Some((part, passed)) = open.pop() {
        looked_at += 1;
        if looked_at > MOST_PARTS {
            return Err(TooManyParts);
        }
        let ahead = &these[passed..];
        if ahead.iter().any(|other| part.is_within(other)) {
            continue;
        }
        let Some(met) = ahead.iter().position(|other| part.meets(other)) else {
            return Ok(Some(part.lowest()));
        };
        // The first part is the largest: it is looked at next.
        let mut parts: Vec<HeaderSet<N>> = part.carved(&ahead[met]).collect();
        parts.reverse();
        open.extend(parts.into_iter().map(|part| (part, passed + met + 1)));
    }
    Ok(None)
}
