//! Packets that no entry takes, for document 02's 2.7. Edge ports are 1 and 2, and
//! nothing stands at 2, where all is lost at once; links lead from 10 to 11 and from
//! 12 to 13.

use super::{edge, entry, fabric, link, to_tp_dst, tp_dst};
use crate::fabric::{Fabric, OpenFlow};
use crate::set::Set;

/// The same fabric under OpenFlow 1.3.
pub fn under_1_3(fabric: Fabric) -> Fabric {
    Fabric {
        openflow: OpenFlow::V1_3,
        ..fabric
    }
}

/// The headers with an odd tp_dst.
pub fn odd_tp_dst() -> Set {
    Set {
        care: 1 << 32,
        value: 1 << 32,
    }
}

/// At 1, entry 0 sends what has an odd tp_dst out at 2; the rest is lost.
pub fn lost_at_once() -> Fabric {
    let mut entries = [entry(1, 1, 2)];
    entries[0].matching = odd_tp_dst();
    fabric(&[edge(1, 1), edge(2, 2)], &[], &entries)
}

/// Entry 0 sends all over the first link, with tp_dst 5, and entry 1 over the
/// second. There, entry 2 sends tp_dst 80 out at 2, so that all of it is lost.
pub fn lost_after_two_hops() -> Fabric {
    let mut entries = [entry(1, 1, 10), entry(1, 11, 12), entry(1, 13, 2)];
    entries[0].rewrite = to_tp_dst(5);
    entries[2].matching = tp_dst(80);
    let links = [link(10, 11), link(12, 13)];
    fabric(&[edge(1, 1), edge(2, 2)], &links, &entries)
}

/// At 1, entry 0 sends all out at 2, and its equal, entry 1, sends tp_dst 80 over
/// the first link. There, entry 2 sends tp_dst 22 out at 2.
pub fn lost_by_choice() -> Fabric {
    let mut entries = [entry(5, 1, 2), entry(5, 1, 10), entry(5, 11, 2)];
    entries[1].matching = tp_dst(80);
    entries[2].matching = tp_dst(22);
    fabric(&[edge(1, 1), edge(2, 2)], &[link(10, 11)], &entries)
}

/// Edge ports 5 and 20, and between them 7, where the link from 30 ends. At 5,
/// entry 0 sends what has an odd tp_dst there; no entry takes it or anything else.
pub fn a_link_end_between_edges() -> Fabric {
    let mut entries = [entry(1, 5, 30)];
    entries[0].matching = odd_tp_dst();
    fabric(&[edge(1, 5), edge(2, 20)], &[link(30, 7)], &entries)
}
