//! What hosts can send.

use super::{
    has_types, LEAST_TYPE, NOT_OF_ARP, NO_VLAN, OF_IP, PAST_ICMP, PAST_PCP, PAST_TOS, PAST_VLAN,
};
use crate::field::{Field, ARP, ICMP, IP, IPV6, TCP, UDP};
use crate::header::{Header, HeaderSet};

/// A header of this set that a host can send, outside the other one if that is
/// given; none if there is none.
pub fn sendable_in<const N: usize>(
    set: &HeaderSet<N>,
    outside: Option<&HeaderSet<N>>,
) -> Option<Header<N>> {
    sendable().find_map(|sendable| {
        let common = set.intersection(&sendable)?;
        let left = match outside {
            Some(outside) => common.carved(outside).next(),
            None => Some(common),
        };
        left.map(|left| left.lowest())
    })
}

/// What hosts can send, as sets, the usual first: without a tag, and over TCP.
fn sendable<const N: usize>() -> impl Iterator<Item = HeaderSet<N>> {
    let tags = [(NO_VLAN, NO_VLAN), (PAST_VLAN, 0)].into_iter();
    let tagged =
        tags.filter_map(|(care, value)| with(HeaderSet::ALL_WILD, Field::DL_VLAN, care, value));
    tagged.flat_map(|tagged| match has_types::<N>() {
        true => typed(tagged),
        false => transported(tagged),
    })
}

/// What of this set is in a frame whose type is known: IPv4, ARP or another.
fn typed<const N: usize>(tagged: HeaderSet<N>) -> Vec<HeaderSet<N>> {
    // A frame without a tag has no priority, one with a tag a small one.
    let past = match tagged.lowest().get(Field::DL_VLAN) {
        NO_VLAN => Field::DL_VLAN_PCP.full(),
        _ => PAST_PCP,
    };
    let Some(tagged) = with(tagged, Field::DL_VLAN_PCP, past, 0) else {
        return Vec::new();
    };
    let ip = of_type(tagged, IP).map_or(Vec::new(), transported);
    let arp = of_type(tagged, ARP).map_or(Vec::new(), resolved);
    [ip, arp, others(tagged)].concat()
}

fn of_type<const N: usize>(set: HeaderSet<N>, number: u64) -> Option<HeaderSet<N>> {
    with(set, Field::DL_TYPE, Field::DL_TYPE.full(), number)
}

/// What of this set has a protocol, and ports only if the protocol has them.
fn transported<const N: usize>(set: HeaderSet<N>) -> Vec<HeaderSet<N>> {
    let served = with(set, Field::NW_TOS, PAST_TOS, 0);
    let of = |protocol| with(served?, Field::NW_PROTO, Field::NW_PROTO.full(), protocol);
    let ports = [Field::TP_SRC, Field::TP_DST];
    let icmp = of(ICMP).and_then(|set| without(set, &ports, PAST_ICMP));
    let with_ports = [of(TCP), of(UDP), icmp].into_iter().flatten();
    let others = served.map_or(Vec::new(), with_protocols).into_iter();
    let others = others.filter_map(|set| without(set, &ports, Field::TP_SRC.full()));
    with_ports.chain(others).collect()
}

/// What of this set is ARP's.
fn resolved<const N: usize>(set: HeaderSet<N>) -> Vec<HeaderSet<N>> {
    let set = without(set, &NOT_OF_ARP, u64::MAX);
    set.map_or(Vec::new(), with_protocols)
}

/// What of this set has a protocol: any but 0 has one of its bits set.
fn with_protocols<const N: usize>(set: HeaderSet<N>) -> Vec<HeaderSet<N>> {
    let bits = (0..Field::NW_PROTO.width()).map(|bit| 1 << bit);
    bits.filter_map(|bit| with(set, Field::NW_PROTO, bit, bit))
        .collect()
}

/// What of this set has another type: IPv6, or any that is one.
fn others<const N: usize>(set: HeaderSet<N>) -> Vec<HeaderSet<N>> {
    let Some(set) = without(set, &OF_IP, u64::MAX) else {
        return Vec::new();
    };
    let not_ip_or_arp = |other: HeaderSet<N>| {
        let known = [IP, ARP]
            .into_iter()
            .filter_map(|number| of_type(HeaderSet::ALL_WILD, number));
        known.fold(vec![other], |parts, known| {
            parts.iter().flat_map(|part| part.carved(&known)).collect()
        })
    };
    // From the least type on a type has one of the bits above it, or its own.
    let bits = [0x8000, 0x4000, 0x2000, 0x1000, 0x0800, LEAST_TYPE].into_iter();
    let types = bits.filter_map(|bits| with(set, Field::DL_TYPE, bits, bits));
    of_type(set, IPV6)
        .into_iter()
        .chain(types.flat_map(not_ip_or_arp))
        .collect()
}

/// This set, with these bits 0 in each of these fields, which are wild in it.
fn without<const N: usize>(set: HeaderSet<N>, fields: &[Field], bits: u64) -> Option<HeaderSet<N>> {
    let mut fields = fields.iter();
    fields.try_fold(set, |set, field| with(set, *field, bits & field.full(), 0))
}

/// This set, with a field's bits fixed, which are wild in it.
fn with<const N: usize>(
    mut set: HeaderSet<N>,
    field: Field,
    care: u64,
    value: u64,
) -> Option<HeaderSet<N>> {
    field.add(&mut set.care, care)?;
    field.add(&mut set.value, value)?;
    Some(set)
}
