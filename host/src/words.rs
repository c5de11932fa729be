//! Bytes as little-endian words.

use crate::header::HeaderSet;

/// A file or an answer; up to three bytes over are left out.
#[derive(Clone, Copy)]
pub(crate) struct Words<'f>(pub(crate) &'f [u8]);

impl Words<'_> {
    pub(crate) fn count(&self) -> usize {
        self.0.len() / 4
    }

    pub(crate) fn get(&self, place: usize) -> Option<u32> {
        let from = place.checked_mul(4)?;
        let bytes = self.0.get(from..from.checked_add(4)?)?;
        bytes.try_into().ok().map(u32::from_le_bytes)
    }

    /// So many of them, from this place on.
    fn array<const N: usize>(&self, place: usize) -> Option<[u32; N]> {
        let mut words = [0; N];
        for (step, word) in words.iter_mut().enumerate() {
            *word = self.get(place.checked_add(step)?)?;
        }
        Some(words)
    }

    /// Care, then value.
    pub(crate) fn set<const N: usize>(&self, place: usize) -> Option<HeaderSet<N>> {
        let (care, value) = (self.array(place)?, self.array(place.checked_add(N)?)?);
        Some(HeaderSet { care, value })
    }
}
