//! Whether a header is one that a host can send in a frame, as a switch of
//! OpenFlow 1.0 reads it, and what to send instead. In version 1 of the file the
//! frame is IPv4's; in version 2 dl_type says what it carries.
//!
//! Documents 01 and 02 know only bits: the packet that a verdict names may have a
//! VLAN that no tag has, or ports without a protocol. It is reached all the same.
//! Nothing here changes a verdict; it only helps people to try it out.
//! Addresses are looked at only where a frame hasn't got them.

mod misfit;
mod sendable;

pub use misfit::{misfits, Misfit};
pub use sendable::sendable_in;

use crate::fabric::Fabric;
use crate::field::Field;
use crate::header::Header;
use crate::query::Query;
use crate::verdict::Verdict;
use crate::version::Version;

/// The VLAN of a frame without a tag, in OpenFlow 1.0.
const NO_VLAN: u64 = 0xffff;
/// The bits of a VLAN that a tag doesn't have.
const PAST_VLAN: u64 = 0xf000;
/// The bits of dl_vlan_pcp that a tag doesn't have.
const PAST_PCP: u64 = 0xf8;
/// The bits of nw_tos that OpenFlow 1.0 doesn't read.
const PAST_TOS: u64 = 0x03;
/// The bits of tp_src and tp_dst that an ICMP type and code don't have.
const PAST_ICMP: u64 = 0xff00;
/// The least dl_type; what is below is a frame's length.
const LEAST_TYPE: u64 = 0x0600;

/// The fields that a frame has only if it carries IPv4 or, some of them, ARP.
const OF_IP: [Field; 6] = [
    Field::NW_SRC,
    Field::NW_DST,
    Field::TP_SRC,
    Field::TP_DST,
    Field::NW_TOS,
    Field::NW_PROTO,
];

/// The fields of these that ARP hasn't got. Its addresses and its operation are
/// nw_src, nw_dst and nw_proto.
const NOT_OF_ARP: [Field; 3] = [Field::TP_SRC, Field::TP_DST, Field::NW_TOS];

/// Whether a header of so many words says what its frame carries; else it is
/// IPv4.
fn has_types<const N: usize>() -> bool {
    Field::DL_TYPE.is_in(Version::of::<N>())
}

/// A foreign packet that a host can send, of the same find as a reached
/// verdict's packet; none if there is none. What vouches for it is that find,
/// whose way the proved call gave: all of its packets may take it. This only
/// traces its headers back and follows the packet along the same way, as
/// [`Fabric::takers`] allows; a packet run would stop where there is a choice.
pub fn instead<const N: usize>(
    file: &[u8],
    query: &Query<N>,
    verdict: &Verdict<N>,
) -> Option<Header<N>> {
    let fabric = Fabric::<N>::accepted(file).ok()?;
    let Verdict::Reached { port, entries, .. } = verdict else {
        return None;
    };
    let target = fabric.edge(u16::try_from(query.port).ok()?)?;
    let edge = fabric.edge(*port)?;
    let admitted = (edge.group == target.group).then_some(&edge.admitted);
    let header = sendable_in(&verdict.find(&fabric, query)?, admitted)?;
    let (exit, left_with) = fabric.exit_by(*port, &header, entries)?;
    (exit == target.port && query.asked.contains(&left_with)).then_some(header)
}
