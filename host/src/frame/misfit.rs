//! Why no host sends a header.

use std::fmt;

use super::{
    has_types, LEAST_TYPE, NOT_OF_ARP, NO_VLAN, OF_IP, PAST_ICMP, PAST_PCP, PAST_TOS, PAST_VLAN,
};
use crate::field::{Field, ARP, ICMP, IP, TCP, UDP};
use crate::header::Header;

/// Why no host sends a header.
#[derive(Clone, Copy, Debug, PartialEq, Eq)]
#[non_exhaustive]
pub enum Misfit {
    /// A VLAN that no tag has.
    Vlan(u64),
    /// A priority that no tag has.
    Pcp(u64),
    /// A priority without a tag.
    NoTag(u64),
    /// A type that is a length.
    Type(u64),
    /// A type of service with bits that OpenFlow 1.0 reads as 0.
    Tos(u64),
    /// Protocol 0.
    NoProtocol,
    /// A field of IPv4, this one, in a frame that carries something else.
    NoIp(Field, u64),
    /// A tp_src or tp_dst, this field, without a protocol that has it.
    NoPorts(Field, u64),
    /// An ICMP type or code, this field, of more than 8 bits.
    Icmp(Field, u64),
}

impl fmt::Display for Misfit {
    fn fmt(&self, f: &mut fmt::Formatter) -> fmt::Result {
        match self {
            Misfit::Vlan(vlan) => write!(
                f,
                "dl_vlan {vlan}: a tag has 0 to {}, and {NO_VLAN} is no tag",
                !PAST_VLAN & NO_VLAN
            ),
            Misfit::Pcp(pcp) => write!(f, "dl_vlan_pcp {pcp}: a tag has 0 to 7"),
            Misfit::NoTag(pcp) => write!(f, "dl_vlan_pcp {pcp}: a frame without a tag has 0"),
            Misfit::Type(number) => write!(
                f,
                "dl_type 0x{number:04x}: types are 0x{LEAST_TYPE:04x} and above"
            ),
            Misfit::Tos(tos) => write!(
                f,
                "nw_tos {tos}: OpenFlow 1.0 reads its two lowest bits as 0"
            ),
            Misfit::NoProtocol => f.write_str("nw_proto 0: only a frame made by hand has it"),
            Misfit::NoIp(field, value) => {
                let (name, value) = (field.name(), field.in_words(*value));
                write!(f, "{name} {value}: a frame of this dl_type hasn't got it")
            }
            Misfit::NoPorts(field, value) => write!(
                f,
                "{} {value}: only tcp, udp and icmp have it",
                field.name()
            ),
            Misfit::Icmp(field, value) => {
                write!(f, "{} {value}: icmp has 0 to 255 there", field.name())
            }
        }
    }
}

/// Why no host sends this header; nothing if one can.
///
/// ```
/// use mwishovala::{frame, Header, HeaderSet};
/// let set: HeaderSet = "nw_dst=10.0.0.2,tp_dst=80".parse()?;
/// let why: Vec<String> = frame::misfits(&set.lowest()).iter().map(|m| m.to_string()).collect();
/// assert_eq!(why, [
///     "nw_proto 0: only a frame made by hand has it",
///     "tp_dst 80: only tcp, udp and icmp have it",
/// ]);
/// let sent = frame::sendable_in(&set, None).unwrap();
/// assert_eq!(sent.to_string(), "nw_src=0.0.0.0,nw_dst=10.0.0.2,tp_src=0,tp_dst=80,\
///                               dl_vlan=65535,nw_tos=0,nw_proto=6");
/// # Ok::<(), mwishovala::text::Wrong>(())
/// ```
pub fn misfits<const N: usize>(header: &Header<N>) -> Vec<Misfit> {
    let mut misfits = of_tag(header);
    misfits.extend(match header.get(Field::DL_TYPE) {
        _ if !has_types::<N>() => of_ip(header),
        IP => of_ip(header),
        ARP => of_arp(header),
        LEAST_TYPE.. => present(header, &OF_IP),
        length => vec![Misfit::Type(length)],
    });
    misfits
}

fn of_arp<const N: usize>(header: &Header<N>) -> Vec<Misfit> {
    let mut misfits = present(header, &NOT_OF_ARP);
    if header.get(Field::NW_PROTO) == 0 {
        misfits.push(Misfit::NoProtocol);
    }
    misfits
}

/// Those of these fields that aren't 0, where a frame hasn't got them.
fn present<const N: usize>(header: &Header<N>, fields: &[Field]) -> Vec<Misfit> {
    let values = fields.iter().map(|&field| (field, header.get(field)));
    let present = values.filter(|(_, value)| *value != 0);
    present
        .map(|(field, value)| Misfit::NoIp(field, value))
        .collect()
}

fn of_tag<const N: usize>(header: &Header<N>) -> Vec<Misfit> {
    let mut misfits = Vec::new();
    let (vlan, pcp) = (header.get(Field::DL_VLAN), header.get(Field::DL_VLAN_PCP));
    if vlan & PAST_VLAN != 0 && vlan != NO_VLAN {
        misfits.push(Misfit::Vlan(vlan));
    }
    if pcp & PAST_PCP != 0 {
        misfits.push(Misfit::Pcp(pcp));
    } else if pcp != 0 && vlan == NO_VLAN {
        misfits.push(Misfit::NoTag(pcp));
    }
    misfits
}

fn of_ip<const N: usize>(header: &Header<N>) -> Vec<Misfit> {
    let mut misfits = Vec::new();
    let tos = header.get(Field::NW_TOS);
    if tos & PAST_TOS != 0 {
        misfits.push(Misfit::Tos(tos));
    }
    let protocol = header.get(Field::NW_PROTO);
    if protocol == 0 {
        misfits.push(Misfit::NoProtocol);
    }
    for field in [Field::TP_SRC, Field::TP_DST] {
        let value = header.get(field);
        match protocol {
            TCP | UDP => (),
            ICMP if value & PAST_ICMP != 0 => misfits.push(Misfit::Icmp(field, value)),
            ICMP => (),
            _ if value != 0 => misfits.push(Misfit::NoPorts(field, value)),
            _ => (),
        }
    }
    misfits
}
