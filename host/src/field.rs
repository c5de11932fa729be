//! The fields of a header: a name, and which of its bits.

use crate::header::place_of;
use crate::version::Version;

/// The widest field: an Ethernet address.
pub const MOST_FIELD_BITS: usize = 48;

/// Protocols, as nw_proto has them.
pub(crate) const ICMP: u64 = 1;
pub(crate) const TCP: u64 = 6;
pub(crate) const UDP: u64 = 17;

/// What frames carry, as dl_type has it.
pub(crate) const IP: u64 = 0x0800;
pub(crate) const ARP: u64 = 0x0806;
pub(crate) const IPV6: u64 = 0x86dd;

/// A field of a header, by its name in OpenFlow 1.0 and its bits, which are
/// counted from word 0 bit 31 on and may go on in the next word.
#[derive(Clone, Copy, Debug, PartialEq, Eq, Hash)]
pub struct Field {
    name: &'static str,
    first: usize,
    width: usize,
    form: Form,
}

/// How people write a field's value.
#[derive(Clone, Copy, Debug, PartialEq, Eq, Hash)]
pub(crate) enum Form {
    Number,
    /// A number that is known by its hexadecimal digits.
    Hexadecimal,
    /// Dotted.
    Ipv4Address,
    /// Six bytes, with colons between them.
    EthernetAddress,
}

impl Field {
    /// The IPv4 source address.
    pub const NW_SRC: Field = Field::of("nw_src", 0, 32, Form::Ipv4Address);
    /// The IPv4 destination address.
    pub const NW_DST: Field = Field::of("nw_dst", 32, 32, Form::Ipv4Address);
    /// The source port of TCP or UDP, or the type of ICMP.
    pub const TP_SRC: Field = Field::of("tp_src", 64, 16, Form::Number);
    /// The destination port of TCP or UDP, or the code of ICMP.
    pub const TP_DST: Field = Field::of("tp_dst", 80, 16, Form::Number);
    /// The VLAN.
    pub const DL_VLAN: Field = Field::of("dl_vlan", 96, 16, Form::Number);
    /// The IPv4 type of service.
    pub const NW_TOS: Field = Field::of("nw_tos", 112, 8, Form::Number);
    /// The IPv4 protocol.
    pub const NW_PROTO: Field = Field::of("nw_proto", 120, 8, Form::Number);

    /// The Ethernet source address.
    pub const DL_SRC: Field = Field::of("dl_src", 128, 48, Form::EthernetAddress);
    /// The Ethernet destination address.
    pub const DL_DST: Field = Field::of("dl_dst", 176, 48, Form::EthernetAddress);
    /// What the frame carries: IPv4, ARP, IPv6 or another.
    pub const DL_TYPE: Field = Field::of("dl_type", 224, 16, Form::Hexadecimal);
    /// The priority in the VLAN's tag.
    pub const DL_VLAN_PCP: Field = Field::of("dl_vlan_pcp", 240, 8, Form::Number);

    /// All, from word 0 bit 31 on. The first seven are a header's of four words
    /// and leave no bit of it out; of eight words the last eight bits are no
    /// field's, and have to be zero wherever a set could care for them.
    pub const ALL: [Field; 11] = [
        Field::NW_SRC,
        Field::NW_DST,
        Field::TP_SRC,
        Field::TP_DST,
        Field::DL_VLAN,
        Field::NW_TOS,
        Field::NW_PROTO,
        Field::DL_SRC,
        Field::DL_DST,
        Field::DL_TYPE,
        Field::DL_VLAN_PCP,
    ];

    const fn of(name: &'static str, first: usize, width: usize, form: Form) -> Field {
        Field {
            name,
            first,
            width,
            form,
        }
    }

    /// Those of a header of this version.
    pub fn all_in(version: Version) -> impl Iterator<Item = Field> {
        let all = Field::ALL.into_iter();
        all.filter(move |field| field.is_in(version))
    }

    /// Whether a header of this version has it.
    pub const fn is_in(self, version: Version) -> bool {
        self.first + self.width <= 32 * version.words()
    }

    /// What is said where it is named of a version that doesn't have it.
    pub(crate) fn missing_in(self, version: Version) -> String {
        format!("{} is no field of version {}", self.name, version.number())
    }

    /// A field of one's own: its name, its first bit and how many bits it has,
    /// 1 to 48.
    pub const fn new(name: &'static str, first: usize, width: usize) -> Option<Field> {
        if width == 0 || width > MOST_FIELD_BITS || first.checked_add(width).is_none() {
            return None;
        }
        Some(Field::of(name, first, width, Form::Number))
    }

    /// Its name.
    pub const fn name(self) -> &'static str {
        self.name
    }

    /// The field that has this name.
    pub fn named(name: &str) -> Option<Field> {
        Field::ALL.into_iter().find(|field| field.name == name)
    }

    /// Whether its value is an address, of IPv4 or of Ethernet.
    pub fn is_address(self) -> bool {
        matches!(self.form, Form::Ipv4Address | Form::EthernetAddress)
    }

    pub(crate) fn form(self) -> Form {
        self.form
    }

    /// The values that have names.
    pub(crate) fn named_values(self) -> &'static [(&'static str, u64)] {
        match self {
            Field::NW_PROTO => &[("icmp", ICMP), ("tcp", TCP), ("udp", UDP)],
            Field::DL_TYPE => &[("ip", IP), ("arp", ARP), ("ipv6", IPV6)],
            _ => &[],
        }
    }

    /// How many bits it has.
    pub const fn width(self) -> usize {
        self.width
    }

    /// Its largest value: all its bits.
    pub const fn full(self) -> u64 {
        u64::MAX >> (u64::BITS as usize - self.width)
    }

    /// This field of so many words; bits of it past the last word are 0.
    pub fn get<const N: usize>(self, words: &[u32; N]) -> u64 {
        self.bits().map(place_of).fold(0, |value, (word, mask)| {
            let set = words.get(word).is_some_and(|word| word & mask != 0);
            value << 1 | u64::from(set)
        })
    }

    /// Sets these bits in this field of so many words. None, and nothing is
    /// set, if one of them is past its width or the field past the words.
    pub(crate) fn add<const N: usize>(self, words: &mut [u32; N], value: u64) -> Option<()> {
        if value > self.full() || self.first + self.width > 32 * N {
            return None;
        }
        for (place, (word, mask)) in self.bits().rev().map(place_of).enumerate() {
            if value >> place & 1 == 1 {
                words[word] |= mask;
            }
        }
        Some(())
    }

    fn bits(self) -> std::ops::Range<usize> {
        self.first..self.first + self.width
    }
}
