//! A packet run's answer.

use crate::header::Header;
use crate::path::{Path, Way};
use crate::refusal::Refusal;

/// How a packet run ends.
#[derive(Clone, Copy, Debug, PartialEq, Eq)]
#[non_exhaustive]
pub enum Fate {
    /// It left the fabric at the run's port.
    Left,
    /// An entry at the run's port dropped it or, under OpenFlow 1.3, no entry there
    /// took it: [`Fabric::missed`](crate::Fabric::missed) tells them apart.
    Dropped,
    /// No entry at the run's port took it, under OpenFlow 1.0.
    Lost,
    /// The limit's hops are made, and a link leads on to the run's port.
    Travelling,
    /// Two or more entries of the highest priority match at the run's port, an
    /// in-port, and any of them may take it. That hop isn't made;
    /// [`Fabric::takers`](crate::Fabric::takers) has those entries.
    Tied,
}

/// One packet's way.
#[derive(Clone, Copy, Debug, PartialEq, Eq)]
#[non_exhaustive]
pub struct Run<const N: usize = 4> {
    /// How it ended.
    pub fate: Fate,
    /// Where it ended.
    pub port: u16,
    /// How many hops it made.
    pub hops: u32,
    /// As the last entry that took it left it.
    pub header: Header<N>,
    /// The entries that took it.
    pub entries: Path,
}

impl<const N: usize> Run<N> {
    pub(crate) fn read(words: &[u32]) -> Result<Run<N>, Refusal> {
        Run::of(words).ok_or_else(Refusal::unknown)
    }

    fn of(words: &[u32]) -> Option<Run<N>> {
        let (&[fate, 0], way) = words.split_first_chunk()? else {
            return None;
        };
        let fate = match fate {
            0 => Fate::Left,
            1 => Fate::Dropped,
            2 => Fate::Lost,
            3 => Fate::Travelling,
            4 => Fate::Tied,
            _ => return None,
        };
        let way = Way::read(way)?;
        Some(Run {
            fate,
            port: way.port,
            hops: way.hops,
            header: way.header,
            entries: way.entries,
        })
    }
}
