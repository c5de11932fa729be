//! Damaging an accepted file, in each way that one of questions 1 to 7 can
//! refuse, or at random.

mod chance;
mod layout;
mod records;

use super::parts::{some_ports, tidy};
use super::source::Rng;
use crate::bits::Bits;
use crate::fabric::{Edge, Entry, Fabric, Link, PORTS};
use crate::file::read_as;
use crate::refusal::Refusal;

use chance::{flipped, record_changed, start_flipped, words_changed};
use layout::{
    misplaced_end, stray_zero_bit, wrong_kind, wrong_length, wrong_start, wrong_transfer, File,
};
use records::{
    link_misplaced, too_many_edges_or_links, too_many_entries, value_outside, wrong_edge_port,
    wrong_entry_port, wrong_link_port, zero_bit_cared_for,
};

/// The ways and the arrays of them, from two lists of names.
macro_rules! ways {
    ($($how:ident,)*; $($wide:ident,)*) => {
        /// A way to damage a file, named for the clause that it breaks.
        #[derive(Clone, Copy, Debug, PartialEq, Eq)]
        pub enum Damage {
            $($how,)*
            $($wide,)*
        }

        impl Damage {
            /// Those of either version.
            pub const ALL: [Damage; 46] = [$(Damage::$how,)*];
            /// Those of version 2 alone.
            pub const OF_VERSION_2: [Damage; 4] = [$(Damage::$wide,)*];
        }
    };
}

ways! {
    // Question 1.
    TooShort,
    NotWholeWords,
    TooLong,
    // Question 2.
    Truncated,
    Padded,
    WrongCount,
    WrongVersion,
    NoStart,
    // Question 3.
    NoWordHere,
    UnknownKind,
    SmallerKind,
    RecordNotInside,
    LinkZeroBits,
    EntryZeroBits,
    EndZeroBits,
    TransferAboveTwo,
    TransferAndZeroBits,
    EndInTheMiddle,
    WordsAfterEnd,
    // Question 4.
    EdgePortZero,
    LinkFromZero,
    LinkToZero,
    EntryInPortZero,
    EdgesFalling,
    EdgesEqual,
    LinksFalling,
    LinksEqual,
    LinkToItself,
    EntryToItself,
    // Question 5.
    EdgeValueOutside,
    MatchValueOutside,
    RewriteValueOutside,
    // Question 6.
    LinkFromEdge,
    LinkToEdge,
    LinksWithOneEnd,
    // Question 7.
    EdgeTooMany,
    LinkTooMany,
    EntryTooMany,
    EntryTooManyAtInPort,
    // Any question or none.
    FlippedStartBit,
    FlippedBit,
    FlippedByte,
    OtherWord,
    SwappedWords,
    RecordTwice,
    RecordGone,
    ;
    // Question 2.
    MarkedAsVersion1,
    // Question 5.
    EdgeZeroBits,
    MatchZeroBits,
    RewriteZeroBits,
}

/// A damaged file and, unless the damage was at random, what refuses it.
#[derive(Clone, Debug)]
pub struct Damaged {
    pub bytes: Vec<u8>,
    pub refusal: Option<Refusal>,
}

/// The bytes of an accepted file, damaged in some way.
pub fn damage<B: Bits>(bytes: &[u8], rng: &mut Rng<B>) -> Vec<u8> {
    let how = match B::VERSION == 2 && rng.once_in(10) {
        true => rng.one_of(Damage::OF_VERSION_2),
        false => rng.one_of(Damage::ALL),
    };
    inflict(how, bytes, rng).bytes
}

/// The bytes of an accepted file, damaged in this way. Where the damage needs
/// records that aren't there, they are added first. A file that isn't accepted
/// only has a bit flipped.
pub fn inflict<B: Bits>(how: Damage, bytes: &[u8], rng: &mut Rng<B>) -> Damaged {
    let one_bit = 1 << rng.below(8);
    let some_bits = rng.between(1, 0xff) as u8;
    let Ok(mut fabric) = read_as::<B>(bytes) else {
        return flipped(bytes, one_bit, rng);
    };
    furnish(&mut fabric, rng);
    let file = File::new(&fabric);
    use Damage::*;
    match how {
        TooShort | NotWholeWords | TooLong => wrong_length(how, file, rng),
        Truncated | Padded | WrongCount | WrongVersion | NoStart | MarkedAsVersion1 => {
            wrong_start(how, file, rng)
        }
        NoWordHere | UnknownKind | SmallerKind | RecordNotInside => wrong_kind(how, file, rng),
        LinkZeroBits | EntryZeroBits | EndZeroBits => stray_zero_bit(how, file, rng),
        TransferAboveTwo | TransferAndZeroBits => wrong_transfer(how, file, rng),
        EndInTheMiddle | WordsAfterEnd => misplaced_end(how, file, rng),
        EdgePortZero | EdgesFalling | EdgesEqual => wrong_edge_port(how, fabric, rng),
        LinkFromZero | LinkToZero | LinksFalling | LinksEqual | LinkToItself => {
            wrong_link_port(how, fabric, rng)
        }
        EntryInPortZero | EntryToItself => wrong_entry_port(how, fabric, rng),
        EdgeValueOutside | MatchValueOutside | RewriteValueOutside => {
            value_outside(how, fabric, rng)
        }
        EdgeZeroBits | MatchZeroBits | RewriteZeroBits => zero_bit_cared_for(how, fabric, rng),
        LinkFromEdge | LinkToEdge | LinksWithOneEnd => link_misplaced(how, fabric, rng),
        EdgeTooMany | LinkTooMany => too_many_edges_or_links(how, fabric, rng),
        EntryTooMany | EntryTooManyAtInPort => too_many_entries(how, fabric, rng),
        FlippedStartBit => start_flipped(bytes, rng),
        FlippedBit => flipped(bytes, one_bit, rng),
        FlippedByte => flipped(bytes, some_bits, rng),
        OtherWord | SwappedWords => words_changed(how, bytes, rng),
        RecordTwice | RecordGone => record_changed(how, file, rng),
    }
}

/// At least two edges, two links and an entry.
fn furnish<B: Bits>(fabric: &mut Fabric<B>, rng: &mut Rng<B>) {
    let mut ports = unused_ports(fabric, rng).into_iter();
    let mut port = || ports.next().unwrap_or(1);
    while fabric.edges.len() < 2 {
        fabric.edges.push(Edge::open(1, port()));
    }
    while fabric.links.len() < 2 {
        let (from, to) = (port(), port());
        fabric.links.push(Link { from, to });
    }
    if fabric.entries.is_empty() {
        fabric.entries.push(Entry::plain(1, port(), 0));
    }
    tidy(fabric);
}

/// The ports that no edge, link or entry has, in random order.
fn unused_ports<B: Bits>(fabric: &Fabric<B>, rng: &mut Rng<B>) -> Vec<u16> {
    let mut used = vec![false; PORTS];
    let edges = fabric.edges.iter().map(|edge| edge.port);
    let from = fabric.links.iter().map(|link| link.from);
    let to = fabric.links.iter().map(|link| link.to);
    let in_ports = fabric.entries.iter().map(|entry| entry.in_port);
    for port in edges.chain(from).chain(to).chain(in_ports) {
        used[usize::from(port)] = true;
    }
    let mut ports = some_ports(rng, PORTS);
    ports.retain(|&port| !used[usize::from(port)]);
    ports
}

fn refused(bytes: Vec<u8>, number: u8, place: usize) -> Damaged {
    let refusal = Some(Refusal::new(number, place));
    Damaged { bytes, refusal }
}
