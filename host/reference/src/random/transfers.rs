//! Copies and swaps on purpose, or none at all.

use super::source::Rng;
use crate::bits::Bits;
use crate::fabric::Fabric;
use crate::transfer::Transfer;

/// In a third of the fabrics no entry copies or swaps, in a third one in two
/// does, in a third one in five.
pub(super) fn scatter<B: Bits>(rng: &mut Rng<B>, fabric: &mut Fabric<B>) {
    let Some(times) = rng.one_of([None, Some(2), Some(5)]) else {
        return;
    };
    for entry in &mut fabric.entries {
        if rng.once_in(times) {
            entry.transfer = rng.one_of([Transfer::Copy, Transfer::Swap]);
        }
    }
}
