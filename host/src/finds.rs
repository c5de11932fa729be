//! The finds of a list.

use crate::header::HeaderSet;
use crate::path::{port_in, Path};
use crate::version::Version;
use crate::words::Words;

/// The kinds of a find's first word, and of those with its entries.
const FIND: u32 = 6;
const TAKEN: u32 = 7;

/// Headers that arrive at the target from one edge port by one way or, in a list
/// of the lost, are lost at its end: [`Fabric::miss`](crate::Fabric::miss) says
/// where that is. Where entries of the same priority match, a header may stand in
/// several finds, by different ways; [`Equals::along`](crate::Equals::along) says
/// where.
#[derive(Clone, Copy, Debug, PartialEq, Eq)]
#[non_exhaustive]
pub struct Find<const N: usize = 4> {
    /// The edge port that they start from.
    pub port: u16,
    /// How many hops they make: 0 if they are lost where they start.
    pub hops: u32,
    /// The entries that take them by one choice.
    pub entries: Path,
    /// Their headers there.
    pub set: HeaderSet<N>,
}

/// The finds in a list's words, in order.
#[derive(Clone, Debug)]
pub struct Finds<'a, const N: usize = 4> {
    rest: &'a [u8],
}

impl<'a, const N: usize> Finds<'a, N> {
    /// The finds in the bytes that a list wrote; none if these are no finds.
    pub(crate) fn new(written: &'a [u8]) -> Option<Finds<'a, N>> {
        let finds = Finds { rest: written };
        let mut passed = finds.clone();
        passed.by_ref().for_each(drop);
        passed.rest.is_empty().then_some(finds)
    }
}

impl<const N: usize> Iterator for Finds<'_, N> {
    type Item = Find<N>;

    fn next(&mut self) -> Option<Find<N>> {
        let words = Words(self.rest);
        let first = words.get(0).filter(|first| first >> 28 == FIND)?;
        let hops = first >> 12 & 0xffff;
        let set_at = 1 + hops as usize;
        let taken = |place| words.get(place).filter(|word| word >> 28 == TAKEN);
        let entries = (1..set_at).map_while(taken).map(|word| word & 0xfff_ffff);
        let path = Path::new(Version::of::<N>(), entries);
        let find = Find {
            port: port_in(first & 0xfff)?,
            hops,
            entries: path.filter(|path| path.len() == hops as usize)?,
            set: words.set(set_at)?,
        };
        self.rest = self.rest.get(4 * (set_at + 2 * N)..)?;
        Some(find)
    }
}
