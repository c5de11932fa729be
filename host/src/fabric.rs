//! A fabric's records, in file order.

#[cfg(test)]
mod tests;

use crate::calls::accept_as;
use crate::openflow::OpenFlow;
use crate::record::{file_of, Edge, Entry, Link, Record, Unwritable};
use crate::refusal::Refusal;
use crate::version::Version;
use crate::words::Words;

/// What a fabric file says. An entry's number is its index.
///
/// ```
/// use mwishovala::Fabric;
/// let file = mwishovala::text::pack("edge 1 group 7 admits any")?;
/// let fabric = Fabric::read(&file)?;
/// assert_eq!(fabric.edges[0].group, 7);
/// assert_eq!(fabric.to_bytes()?, file);
/// # Ok::<(), Box<dyn std::error::Error>>(())
/// ```
#[derive(Clone, Debug, Default, PartialEq, Eq)]
pub struct Fabric<const N: usize = 4> {
    /// What becomes of a packet that no entry takes.
    pub openflow: OpenFlow,
    /// Their ports rise.
    pub edges: Vec<Edge<N>>,
    /// Their from-ports rise.
    pub links: Vec<Link>,
    /// Numbered as they stand, from 0.
    pub entries: Vec<Entry<N>>,
}

impl Fabric {
    /// The records of a file of version 1 that the proved library accepts;
    /// [`AnyFabric::read`] reads both versions.
    pub fn read(file: &[u8]) -> Result<Fabric, Refusal> {
        Fabric::accepted(file)
    }
}

/// A fabric of either version.
///
/// ```
/// use mwishovala::{text, AnyFabric};
/// let file = text::pack("edge 1 group 7 admits any")?;
/// assert!(matches!(AnyFabric::read(&file)?, AnyFabric::V1(_)));
/// # Ok::<(), Box<dyn std::error::Error>>(())
/// ```
#[derive(Clone, Debug, PartialEq, Eq)]
pub enum AnyFabric {
    /// Of version 1.
    V1(Fabric<4>),
    /// Of version 2.
    V2(Fabric<8>),
}

impl AnyFabric {
    /// The records of a file that the proved library accepts, by the version that
    /// the file names.
    pub fn read(file: &[u8]) -> Result<AnyFabric, Refusal> {
        match Version::of_file(file) {
            Version::V1 => Fabric::accepted(file).map(AnyFabric::V1),
            Version::V2 => Fabric::accepted(file).map(AnyFabric::V2),
        }
    }
}

impl<const N: usize> Fabric<N> {
    /// The records of a file of this version that the proved library accepts.
    pub(crate) fn accepted(file: &[u8]) -> Result<Fabric<N>, Refusal> {
        accept_as::<N>(file)?;
        Fabric::whole(file).ok_or_else(|| Refusal {
            reason: "the library accepts a file that this host can't read whole".into(),
            ..Refusal::unknown()
        })
    }

    /// The records of a file, if they are all that it says: written again, they
    /// are its bytes.
    fn whole(file: &[u8]) -> Option<Fabric<N>> {
        let fabric = Fabric::before(Words(file), usize::MAX);
        (fabric.to_bytes().as_deref() == Ok(file)).then_some(fabric)
    }

    /// What the start says, and the records before this place, as they stand.
    pub(crate) fn before(words: Words, place: usize) -> Fabric<N> {
        let mut fabric = Fabric {
            openflow: words.openflow(),
            ..Fabric::default()
        };
        for (_, record) in words.records().take_while(|(here, _)| *here < place) {
            match record {
                Record::Edge(edge) => fabric.edges.push(edge),
                Record::Link(link) => fabric.links.push(link),
                Record::Entry(entry) => fabric.entries.push(entry),
            }
        }
        fabric
    }

    /// The file that says this, or what a file has no room for; of a fabric that
    /// was read, the bytes it was read from. Whether it is accepted is for
    /// `accept` to say.
    pub fn to_bytes(&self) -> Result<Vec<u8>, Unwritable> {
        let edges = self.edges.iter().copied().map(Record::Edge);
        let links = self.links.iter().copied().map(Record::Link);
        let entries = self.entries.iter().copied().map(Record::Entry);
        file_of(self.openflow, edges.chain(links).chain(entries))
    }

    /// The same fabric in headers of another number of words, which are wild, and
    /// not rewritten, where they are more. None if one of its sets cares for a
    /// word that these headers don't have. Whether it is accepted is for `accept`
    /// to say: version 2 has fewer entries.
    ///
    /// ```
    /// use mwishovala::{text, Fabric, Version};
    /// let fabric = Fabric::read(&text::pack("edge 1 group 7 admits nw_src=10.0.0.0/24")?)?;
    /// let wide: Fabric<8> = fabric.resized().unwrap();
    /// assert_eq!(Version::of_file(&wide.to_bytes()?), Version::V2);
    /// assert_eq!(wide.resized(), Some(fabric));
    /// # Ok::<(), Box<dyn std::error::Error>>(())
    /// ```
    pub fn resized<const M: usize>(&self) -> Option<Fabric<M>> {
        let edges = self.edges.iter().map(Edge::resized);
        let entries = self.entries.iter().map(Entry::resized);
        Some(Fabric {
            openflow: self.openflow,
            edges: edges.collect::<Option<_>>()?,
            links: self.links.clone(),
            entries: entries.collect::<Option<_>>()?,
        })
    }

    /// The edge at this port, if it is an edge port.
    pub fn edge(&self, port: u16) -> Option<&Edge<N>> {
        self.edges.iter().find(|edge| edge.port == port)
    }

    /// The link that leads on from this out-port.
    pub fn link_from(&self, port: u16) -> Option<&Link> {
        self.links.iter().find(|link| link.from == port)
    }

    /// The entries with their numbers; no file has more of them than that.
    pub(crate) fn numbered(&self) -> impl Iterator<Item = (u16, &Entry<N>)> {
        (0..=u16::MAX).zip(&self.entries)
    }

    /// The entries that beat this one, in file order.
    pub(crate) fn beaters(&self, beaten: &Entry<N>) -> impl Iterator<Item = &Entry<N>> {
        let beaten = *beaten;
        self.entries
            .iter()
            .filter(move |entry| entry.beats(&beaten))
    }
}
