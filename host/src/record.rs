//! The records of a fabric file, read without asking whether they are right:
//! that is the proved library's to say.

use std::error::Error;
use std::fmt;

use crate::action::Transfer;
use crate::header::HeaderSet;
use crate::limits::MOST_PORT;
use crate::openflow::OpenFlow;
use crate::version::Version;
use crate::words::Words;

/// Kinds, in the order in which records stand in a file.
pub(crate) const START: u32 = 1;
pub(crate) const EDGE: u32 = 2;
pub(crate) const LINK: u32 = 3;
pub(crate) const ENTRY: u32 = 4;
pub(crate) const END: u32 = 5;

/// An edge port, its group, and the headers that the group may send there.
#[derive(Clone, Copy, Debug, PartialEq, Eq)]
pub struct Edge<const N: usize = 4> {
    /// Whose it is.
    pub group: u16,
    /// The edge port.
    pub port: u16,
    /// What its group may send there.
    pub admitted: HeaderSet<N>,
}

impl<const N: usize> Edge<N> {
    /// The same in headers of another number of words, if it can be said in them.
    pub(crate) fn resized<const M: usize>(&self) -> Option<Edge<M>> {
        Some(Edge {
            group: self.group,
            port: self.port,
            admitted: self.admitted.resized()?,
        })
    }
}

/// A link, one way.
#[derive(Clone, Copy, Debug, PartialEq, Eq)]
pub struct Link {
    /// The out-port that it leads on from.
    pub from: u16,
    /// The in-port that it leads to.
    pub to: u16,
}

/// A flow entry.
#[derive(Clone, Copy, Debug, PartialEq, Eq)]
pub struct Entry<const N: usize = 4> {
    /// Of the entries that match, one with the highest takes the packet.
    pub priority: u16,
    /// Where it takes packets in.
    pub in_port: u16,
    /// Where it sends them out; 0 drops them.
    pub out_port: u16,
    /// The headers that it takes.
    pub matching: HeaderSet<N>,
    /// What it does with the addresses before it rewrites.
    pub transfer: Transfer,
    /// What it writes; the care is the rewrite's mask.
    pub rewrite: HeaderSet<N>,
}

impl<const N: usize> Entry<N> {
    /// Whether the other one never takes what both match: its priority at the
    /// same in-port is lower. Where they stand in the file doesn't count.
    pub fn beats(&self, other: &Entry<N>) -> bool {
        self.in_port == other.in_port && self.priority > other.priority
    }

    /// The same in headers of another number of words, if it can be said in them.
    pub(crate) fn resized<const M: usize>(&self) -> Option<Entry<M>> {
        Some(Entry {
            priority: self.priority,
            in_port: self.in_port,
            out_port: self.out_port,
            matching: self.matching.resized()?,
            transfer: self.transfer,
            rewrite: self.rewrite.resized()?,
        })
    }

    /// Whether either may take what both match, if none beats them.
    pub(crate) fn ranks_with(&self, other: &Entry<N>) -> bool {
        self.in_port == other.in_port && self.priority == other.priority
    }
}

#[derive(Clone, Copy, Debug, PartialEq, Eq)]
pub(crate) enum Record<const N: usize = 4> {
    Edge(Edge<N>),
    Link(Link),
    Entry(Entry<N>),
}

impl<'f> Words<'f> {
    /// What a file's start says of a packet that no entry takes.
    pub(crate) fn openflow(&self) -> OpenFlow {
        self.get(0).map_or(OpenFlow::V1_0, OpenFlow::of_start)
    }

    /// The edge, link or entry that starts here; none if it has a bit set that
    /// these have no place for, or a transfer that there isn't.
    pub(crate) fn record<const N: usize>(&self, place: usize) -> Option<Record<N>> {
        let first = self.get(place)?;
        let upper = (first >> 12) as u16;
        match first >> 28 {
            EDGE => Some(Record::Edge(Edge {
                group: upper,
                port: port(first),
                admitted: self.set(place + 1)?,
            })),
            LINK => Some(Record::Link(Link {
                from: port_alone(first >> 12 & 0xffff)?,
                to: port(first),
            })),
            ENTRY => {
                let second = self.get(place + 1)?;
                Some(Record::Entry(Entry {
                    priority: upper,
                    in_port: port(first),
                    out_port: port_alone(second & 0x0fff_ffff)?,
                    matching: self.set(place + 2)?,
                    transfer: Transfer::numbered(transfer_number(second))?,
                    rewrite: self.set(place + 2 + 2 * N)?,
                }))
            }
            _ => None,
        }
    }

    /// The records from the first on, with their places, up to the end or to
    /// what is none.
    pub(crate) fn records<const N: usize>(self) -> impl Iterator<Item = (usize, Record<N>)> + 'f {
        let mut place = 1;
        std::iter::from_fn(move || {
            let here = place;
            let record = self.record(here)?;
            place += record.words();
            Some((here, record))
        })
    }
}

/// The port in bits 11..0.
fn port(word: u32) -> u16 {
    (word & PORT_BITS) as u16
}

/// The port in bits 11..0, if no other bit is set.
fn port_alone(word: u32) -> Option<u16> {
    (word & !PORT_BITS == 0).then(|| port(word))
}

const PORT_BITS: u32 = 0xfff;

/// The number in bits 31..28 of an entry's second word. Not each is a transfer's.
pub(crate) fn transfer_number(second: u32) -> u32 {
    second >> 28
}

/// Why records can't be written: the file's words have too few bits for them.
#[derive(Clone, Copy, Debug, PartialEq, Eq)]
#[non_exhaustive]
pub enum Unwritable {
    /// A port above 4095.
    Port(u16),
    /// More words than a start can count.
    Words(usize),
}

impl fmt::Display for Unwritable {
    fn fmt(&self, f: &mut fmt::Formatter) -> fmt::Result {
        match self {
            Unwritable::Port(port) => write!(f, "port {port}: ports are 1 to {MOST_PORT}"),
            Unwritable::Words(words) => {
                let most = u16::MAX;
                write!(
                    f,
                    "the file has {words} words, and a start counts at most {most}"
                )
            }
        }
    }
}

impl Error for Unwritable {}

impl<const N: usize> Record<N> {
    pub(crate) fn kind(&self) -> u32 {
        match self {
            Record::Edge(_) => EDGE,
            Record::Link(_) => LINK,
            Record::Entry(_) => ENTRY,
        }
    }

    /// The same in headers of another number of words, if it can be said in them.
    pub(crate) fn resized<const M: usize>(&self) -> Option<Record<M>> {
        Some(match self {
            Record::Edge(edge) => Record::Edge(edge.resized()?),
            Record::Link(link) => Record::Link(*link),
            Record::Entry(entry) => Record::Entry(entry.resized()?),
        })
    }

    /// How many words it has.
    pub(crate) fn words(&self) -> usize {
        Version::of::<N>().record_words(self.kind())
    }

    /// Adds its words.
    fn write(&self, words: &mut Vec<u32>) -> Result<(), Unwritable> {
        let first = |upper: u32, port: u16| Ok(self.kind() << 28 | upper << 12 | port_bits(port)?);
        match self {
            Record::Edge(edge) => {
                words.push(first(edge.group.into(), edge.port)?);
                write_set(&edge.admitted, words);
            }
            Record::Link(link) => words.push(first(port_bits(link.from)?, link.to)?),
            Record::Entry(entry) => {
                words.push(first(entry.priority.into(), entry.in_port)?);
                words.push(entry.transfer.number() << 28 | port_bits(entry.out_port)?);
                write_set(&entry.matching, words);
                write_set(&entry.rewrite, words);
            }
        }
        Ok(())
    }
}

/// A port as bits 11..0.
fn port_bits(port: u16) -> Result<u32, Unwritable> {
    match port {
        0..=MOST_PORT => Ok(port.into()),
        _ => Err(Unwritable::Port(port)),
    }
}

/// The file of these records, which are in their order.
pub(crate) fn file_of<const N: usize>(
    openflow: OpenFlow,
    records: impl Iterator<Item = Record<N>>,
) -> Result<Vec<u8>, Unwritable> {
    let mut words = vec![0];
    for record in records {
        record.write(&mut words)?;
    }
    words.push(END << 28);
    let count = u16::try_from(words.len()).map_err(|_| Unwritable::Words(words.len()))?;
    let version = Version::of::<N>().number();
    words[0] = START << 28 | openflow.bit() | version << 16 | u32::from(count);
    Ok(words.iter().flat_map(|word| word.to_le_bytes()).collect())
}

fn write_set<const N: usize>(set: &HeaderSet<N>, words: &mut Vec<u32>) {
    words.extend(set.care);
    words.extend(set.value);
}
