//! Header sets in words: `nw_dst=10.0.0.0/24,tp_dst=80`, or `any`.

use std::fmt;
use std::net::Ipv4Addr;
use std::str::FromStr;

use super::echo::quoted;
use super::token::Token;
use super::Wrong;
use crate::field::{Field, Form};
use crate::header::{Header, HeaderSet};
use crate::version::Version;

/// Every header, in words.
const ANY: &str = "any";

impl<const N: usize> FromStr for HeaderSet<N> {
    type Err = Wrong;

    fn from_str(text: &str) -> Result<HeaderSet<N>, Wrong> {
        parse_set(Token::whole(text), Version::of::<N>())
    }
}

/// A header in words, as a set that cares for the fields named: what isn't named
/// is 0.
pub(crate) fn parse_header<const N: usize>(text: &str) -> Result<HeaderSet<N>, Wrong> {
    let token = Token::whole(text);
    let version = Version::of::<N>();
    let set = parse_set(token, version)?;
    for field in Field::all_in(version) {
        let care = field.get(&set.care);
        if care != 0 && care != field.full() {
            let name = field.name();
            return Err(token.wrong(format!("{name} has a mask: a packet has one value")));
        }
    }
    Ok(set)
}

/// A set of the fields that this version has.
pub(super) fn parse_set<const N: usize>(
    token: Token,
    version: Version,
) -> Result<HeaderSet<N>, Wrong> {
    let mut set = HeaderSet::ALL_WILD;
    if token.text == ANY {
        return Ok(set);
    }
    let mut named = Vec::new();
    for part in token.split(',') {
        let (name, value) = part
            .split_once('=')
            .ok_or_else(|| part.wrong(format!("{} isn't FIELD=VALUE", quoted(part.text))))?;
        let field = field_named(version, &name)?;
        if named.contains(&field) {
            return Err(name.wrong(format!("{} stands here twice", field.name())));
        }
        named.push(field);
        let (bits, mask) = value_and_mask(field, value)?;
        let added = field
            .add(&mut set.care, mask)
            .and(field.add(&mut set.value, bits));
        added.ok_or_else(|| part.wrong(format!("{} doesn't fit", field.name())))?;
    }
    Ok(set)
}

/// The field of this name, if this version has it.
fn field_named(version: Version, name: &Token) -> Result<Field, Wrong> {
    match Field::named(name.text) {
        Some(field) if field.is_in(version) => Ok(field),
        Some(field) => {
            let missing = field.missing_in(version);
            Err(name.wrong(format!("{missing}: version 2 has it")))
        }
        None => {
            let names: Vec<&str> = Field::all_in(version).map(Field::name).collect();
            Err(name.wrong(format!(
                "{} is no field: these are {}",
                quoted(name.text),
                names.join(", ")
            )))
        }
    }
}

/// `VALUE`, or `VALUE/MASK`; for an address also `VALUE/LENGTH`.
fn value_and_mask(field: Field, token: Token) -> Result<(u64, u64), Wrong> {
    let Some((value, mask)) = token.split_once('/') else {
        return Ok((parse_value(field, &token)?, field.full()));
    };
    let bits = parse_value(field, &value)?;
    let mask = parse_mask(field, &mask)?;
    if bits & !mask != 0 {
        let meant = Value {
            field,
            bits: bits & mask,
            mask,
        };
        // Digits, dots, colons and a slash: it has been read.
        let text = token.text;
        return Err(value.wrong(format!("{text} has bits outside its mask: {meant}?")));
    }
    Ok((bits, mask))
}

fn parse_value(field: Field, token: &Token) -> Result<u64, Wrong> {
    let mut named = field.named_values().iter();
    if let Some((_, value)) = named.find(|(name, _)| *name == token.text) {
        return Ok(*value);
    }
    match field.form() {
        _ if token.text.starts_with("0x") => token.number(field.name(), field.full()),
        Form::Ipv4Address => parse_ipv4(token),
        Form::EthernetAddress => parse_ethernet(token),
        Form::Number | Form::Hexadecimal => token.number(field.name(), field.full()),
    }
}

fn parse_ipv4(token: &Token) -> Result<u64, Wrong> {
    if let Ok(address) = token.text.parse::<Ipv4Addr>() {
        return Ok(u32::from(address).into());
    }
    if token.split('.').count() == 4 {
        for byte in token.split('.') {
            byte.number("byte of an address", u8::MAX)?;
        }
    }
    Err(token.wrong(format!("{} is no address", quoted(token.text))))
}

/// Six bytes of two hexadecimal digits each.
fn parse_ethernet(token: &Token) -> Result<u64, Wrong> {
    let byte = |digits: Token| match digits.text.as_bytes() {
        [high, low] => {
            let digit = |byte: &u8| char::from(*byte).to_digit(16);
            Some(u64::from(digit(high)? << 4 | digit(low)?))
        }
        _ => None,
    };
    let bytes: Option<Vec<u64>> = token.split(':').map(byte).collect();
    match bytes {
        Some(bytes) if bytes.len() == 6 => {
            Ok(bytes.iter().fold(0, |address, byte| address << 8 | byte))
        }
        _ => Err(token.wrong(format!(
            "{} is no Ethernet address, as 02:00:00:00:00:01",
            quoted(token.text)
        ))),
    }
}

fn parse_mask(field: Field, token: &Token) -> Result<u64, Wrong> {
    match field.form() {
        _ if token.text.starts_with("0x") => token.number("mask", field.full()),
        Form::EthernetAddress => parse_ethernet(token),
        Form::Ipv4Address if token.text.contains('.') => parse_ipv4(token),
        Form::Ipv4Address => token
            .number("prefix length", u32::BITS)
            .map(|length| prefix_mask(length).into()),
        Form::Number | Form::Hexadecimal => Err(token.wrong("a mask is hexadecimal, as 0xff00")),
    }
}

/// The mask of an address's first bits.
fn prefix_mask(length: u32) -> u32 {
    u32::MAX.checked_shl(u32::BITS - length).unwrap_or(0)
}

/// One field's part of a set.
struct Value {
    field: Field,
    bits: u64,
    mask: u64,
}

impl fmt::Display for Value {
    fn fmt(&self, f: &mut fmt::Formatter) -> fmt::Result {
        let Value { field, bits, mask } = *self;
        let is_whole = mask == field.full();
        let digits = field.width().div_ceil(4);
        match (field.form(), prefix_length(mask)) {
            (Form::Ipv4Address, Some(u32::BITS)) => write!(f, "{}", dotted(bits)),
            (Form::Ipv4Address, Some(length)) => write!(f, "{}/{length}", dotted(bits)),
            (Form::EthernetAddress, _) if is_whole => write!(f, "{}", colons(bits)),
            (Form::EthernetAddress, _) => write!(f, "{}/{}", colons(bits), colons(mask)),
            (Form::Hexadecimal, _) if is_whole => write!(f, "0x{bits:0digits$x}"),
            (Form::Number, _) if is_whole => write!(f, "{bits}"),
            _ => write!(f, "0x{bits:0digits$x}/0x{mask:0digits$x}"),
        }
    }
}

/// An IPv4 address; its field has no more bits.
fn dotted(bits: u64) -> Ipv4Addr {
    Ipv4Addr::from(bits as u32)
}

/// An Ethernet address; its field has no more than these six bytes.
fn colons(bits: u64) -> String {
    let [_, _, bytes @ ..] = bits.to_be_bytes();
    bytes.map(|byte| format!("{byte:02x}")).join(":")
}

/// How many bits of an address this mask has, if it has only the first ones.
fn prefix_length(mask: u64) -> Option<u32> {
    let length = u32::try_from(mask).ok()?.leading_ones();
    (mask == prefix_mask(length).into()).then_some(length)
}

/// The fields that it cares for.
impl<const N: usize> fmt::Display for HeaderSet<N> {
    fn fmt(&self, f: &mut fmt::Formatter) -> fmt::Result {
        let mut first = true;
        for field in Field::all_in(Version::of::<N>()) {
            let (bits, mask) = (field.get(&self.value), field.get(&self.care));
            if mask != 0 {
                let comma = if first { "" } else { "," };
                let value = Value { field, bits, mask };
                write!(f, "{comma}{}={value}", field.name())?;
                first = false;
            }
        }
        match first {
            true => f.write_str(ANY),
            false => Ok(()),
        }
    }
}

impl<const N: usize> Header<N> {
    /// A field's value in words: addresses byte by byte, dl_type hexadecimal,
    /// others decimal.
    pub fn in_words(&self, field: Field) -> String {
        field.in_words(self.get(field))
    }
}

impl Field {
    /// This value of it in words.
    pub(crate) fn in_words(self, bits: u64) -> String {
        let (field, mask) = (self, self.full());
        Value { field, bits, mask }.to_string()
    }
}

impl<const N: usize> fmt::Display for Header<N> {
    /// All its fields.
    fn fmt(&self, f: &mut fmt::Formatter) -> fmt::Result {
        write!(f, "{}", HeaderSet::only(*self))
    }
}
