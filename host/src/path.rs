//! The way that a packet takes.

use std::fmt;
use std::ops::Deref;

use crate::header::Header;
use crate::limits::{MOST_HOPS, MOST_PORT};
use crate::version::Version;

const HOPS: usize = MOST_HOPS as usize;

/// The entries that take a packet, by their numbers, in travelling order.
#[derive(Clone, Copy, PartialEq, Eq)]
pub struct Path {
    entries: [u16; HOPS],
    hops: usize,
}

impl Path {
    /// From a word for each entry; none if there are too many, or one is no
    /// entry's number in this version.
    pub(crate) fn new(version: Version, words: impl Iterator<Item = u32>) -> Option<Path> {
        let mut path = Path {
            entries: [0; HOPS],
            hops: 0,
        };
        for word in words {
            let number = u16::try_from(word).ok();
            let number = number.filter(|&number| usize::from(number) < version.most_entries())?;
            *path.entries.get_mut(path.hops)? = number;
            path.hops += 1;
        }
        Some(path)
    }
}

impl Deref for Path {
    type Target = [u16];

    fn deref(&self) -> &[u16] {
        &self.entries[..self.hops]
    }
}

impl fmt::Debug for Path {
    fn fmt(&self, f: &mut fmt::Formatter) -> fmt::Result {
        self[..].fmt(f)
    }
}

/// What a verdict that is 'reached' and a run have in common.
pub(crate) struct Way<const N: usize> {
    pub(crate) port: u16,
    pub(crate) hops: u32,
    pub(crate) header: Header<N>,
    pub(crate) entries: Path,
}

impl<const N: usize> Way<N> {
    /// From port, hops, header, and sixteen entries of which unused ones are 0;
    /// none if these words aren't that.
    pub(crate) fn read(words: &[u32]) -> Option<Way<N>> {
        let (&[port, hops], rest) = words.split_first_chunk()?;
        let (header, entries) = rest.split_first_chunk()?;
        let (taken, unused) = entries.split_at_checked(usize::try_from(hops).ok()?)?;
        let whole = entries.len() == HOPS && unused.iter().all(|&word| word == 0);
        whole.then_some(Way {
            port: port_in(port)?,
            hops,
            header: Header(*header),
            entries: Path::new(Version::of::<N>(), taken.iter().copied())?,
        })
    }
}

/// A port of an answer.
pub(crate) fn port_in(word: u32) -> Option<u16> {
    let port = u16::try_from(word).ok()?;
    (1..=MOST_PORT).contains(&port).then_some(port)
}
