//! Table misses under OpenFlow 1.0 or under 1.3.

use super::source::Rng;
use crate::bits::Bits;
use crate::fabric::{Fabric, OpenFlow};

/// One fabric in four is under 1.3.
pub(super) fn choose<B: Bits>(rng: &mut Rng<B>, fabric: &mut Fabric<B>) {
    let [old, new] = OpenFlow::ALL;
    fabric.openflow = rng.one_of([old, old, old, new]);
}
