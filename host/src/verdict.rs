//! A verdict's answer.

use crate::fabric::Fabric;
use crate::header::{Header, HeaderSet};
use crate::path::{Path, Way};
use crate::query::Query;
use crate::refusal::Refusal;

/// Is the target isolated?
#[derive(Clone, Copy, Debug, PartialEq, Eq)]
#[non_exhaustive]
pub enum Verdict<const N: usize = 4> {
    /// No foreign packet arrives within the hop limit, whichever entries of the
    /// same priority take it.
    #[non_exhaustive]
    Isolated {
        /// Made until no entry or trial was left.
        units: u32,
    },
    /// This foreign packet arrives, by one choice among entries of the same
    /// priority: [`Fabric::hops`] says where there are others.
    #[non_exhaustive]
    Reached {
        /// Made until it was found.
        units: u32,
        /// The edge port that it starts from.
        port: u16,
        /// How many hops it makes.
        hops: u32,
        /// Its header there.
        header: Header<N>,
        /// The entries that take it by that choice.
        entries: Path,
    },
}

impl<const N: usize> Verdict<N> {
    /// Words that aren't all as document 01 has them are no verdict: least of
    /// all 'isolated'.
    pub(crate) fn read(words: &[u32]) -> Result<Verdict<N>, Refusal> {
        Verdict::of(words).ok_or_else(Refusal::unknown)
    }

    fn of(words: &[u32]) -> Option<Verdict<N>> {
        let (&[reached, units], rest) = words.split_first_chunk()?;
        match reached {
            0 if rest.iter().all(|&word| word == 0) => Some(Verdict::Isolated { units }),
            1 => {
                let way = Way::read(rest)?;
                Some(Verdict::Reached {
                    units,
                    port: way.port,
                    hops: way.hops,
                    header: way.header,
                    entries: way.entries,
                })
            }
            _ => None,
        }
    }

    /// The headers of the find that a reached verdict's packet is of, on the
    /// fabric and by the query that it answers: they all start at its port and
    /// may take its way. They are traced back here anew, along that way alone,
    /// and are not part of what is proved.
    pub fn find(&self, fabric: &Fabric<N>, query: &Query<N>) -> Option<HeaderSet<N>> {
        let Verdict::Reached {
            header, entries, ..
        } = self
        else {
            return None;
        };
        let mut set = query.asked;
        for hop in fabric.hops(header, entries)?.iter().rev() {
            let undone = hop.entry.action_undone(&set)?;
            set = undone.intersection(&hop.entry.matching)?;
            for beater in fabric.beaters(&hop.entry) {
                let mut parts = set.carved(&beater.matching);
                set = parts.find(|part| part.contains(&hop.header))?;
            }
        }
        Some(set)
    }
}
