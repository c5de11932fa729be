//! The fabric file of either version, read and written: document 01, "The fabric
//! file" and questions 1 to 7, with the transfer that document 02 puts in "bits
//! 31..28 of an entry's second word" (2.5), the choice in "bit 27 of the start
//! word" (2.7) and the Ethernet fields of version 2 (2.6).

use crate::bits::Bits;
use crate::fabric::{
    Edge, Entry, Fabric, Link, OpenFlow, MOST_EDGES, MOST_ENTRIES_PER_IN_PORT, MOST_LINKS, PORTS,
};
use crate::refusal::{ask, Refusal};
use crate::set::{Header, Rewrite, Set};
use crate::transfer::Transfer;

pub const START: u32 = 1;
pub const EDGE: u32 = 2;
pub const LINK: u32 = 3;
pub const ENTRY: u32 = 4;
pub const END: u32 = 5;

/// The words of a link.
pub const LINK_WORDS: usize = 1;
/// The words of an edge and of an entry of version 1.
pub const EDGE_WORDS: usize = edge_words::<Header>();
pub const ENTRY_WORDS: usize = entry_words::<Header>();

/// Its first word, then care and value.
pub const fn edge_words<B: Bits>() -> usize {
    1 + 2 * B::WORDS
}

/// Its two words, then match care, match value, rewrite mask and rewrite value.
pub const fn entry_words<B: Bits>() -> usize {
    2 + 4 * B::WORDS
}

/// The start of a version 1 file of this many words, under OpenFlow 1.0.
pub fn start_word(words: usize) -> u32 {
    start_under(OpenFlow::V1_0, words)
}

/// The same under either.
pub fn start_under(openflow: OpenFlow, words: usize) -> u32 {
    start_of(Header::VERSION, openflow, words)
}

/// "Bit 27 of the start word chooses OpenFlow 1.3 over 1.0, and the version is the
/// eleven bits below."
pub fn start_of(version: u32, openflow: OpenFlow, words: usize) -> u32 {
    START << 28 | (openflow as u32) << 27 | version << 16 | words as u32 & 0xffff
}

/// Reads a version 1 file.
pub fn read(bytes: &[u8]) -> Result<Fabric, Refusal> {
    read_as(bytes)
}

/// Reads a file by asking questions 1 to 7 in turn; questions 3 to 7 are asked
/// of one record before the next is looked at. A file of another version gets a no
/// to question 2, or to 1 if it is longer than this one's can be.
pub fn read_as<B: Bits>(bytes: &[u8]) -> Result<Fabric<B>, Refusal> {
    let length = bytes.len();
    let in_range = (8..=B::MOST_BYTES).contains(&length);
    ask(1, 0, in_range && length.is_multiple_of(4))?;
    let words = to_le_words(bytes);
    let openflow = openflow_of(&words, B::VERSION).ok_or(Refusal::new(2, 0))?;
    let mut reader = Reader::new(openflow);
    let mut place = 1;
    let mut last = START;
    loop {
        let record = record_at::<B>(&words, place, last).ok_or(Refusal::new(3, place))?;
        last = record[0] >> 28;
        match last {
            EDGE => reader.edge(place, record)?,
            LINK => reader.link(place, record)?,
            ENTRY => reader.entry(place, record)?,
            _ => return Ok(reader.fabric),
        }
        place += record.len();
    }
}

/// Writes a file; for a fabric that `read` gave, the very bytes it was read
/// from. Fields wider than their bits in the file lose their upper bits.
pub fn write<B: Bits>(fabric: &Fabric<B>) -> Vec<u8> {
    let mut words = vec![0];
    for edge in &fabric.edges {
        words.extend(edge_record(edge));
    }
    for link in &fabric.links {
        words.push(link_record(link));
    }
    for entry in &fabric.entries {
        words.extend(entry_record(entry));
    }
    words.push(END << 28);
    words[0] = start_of(B::VERSION, fabric.openflow, words.len());
    to_le_bytes(&words)
}

/// Bytes as little-endian words; up to three bytes over are left out.
pub fn to_le_words(bytes: &[u8]) -> Vec<u32> {
    bytes
        .chunks_exact(4)
        .map(|word| u32::from_le_bytes([word[0], word[1], word[2], word[3]]))
        .collect()
}

/// Words as little-endian bytes.
pub fn to_le_bytes(words: &[u32]) -> Vec<u8> {
    words.iter().flat_map(|word| word.to_le_bytes()).collect()
}

/// Question 2: "Is word 0 a start of version 1 with the right count?", or of the
/// version asked for. Then what its bit 27 chooses, either of which is right.
fn openflow_of(words: &[u32], asked: u32) -> Option<OpenFlow> {
    let start = *words.first()?;
    let (kind, version, count) = (start >> 28, start >> 16 & 0x7ff, start & 0xffff);
    let is_right = kind == START && version == asked && count as usize == words.len();
    let chosen = match start >> 27 & 1 {
        0 => OpenFlow::V1_0,
        _ => OpenFlow::V1_3,
    };
    is_right.then_some(chosen)
}

/// Question 3: "Is there a word here, its kind 2 to 5 and no smaller than the
/// last record's, the record inside the file, its zero bits zero, and an end
/// only as the last word?"
fn record_at<B: Bits>(words: &[u32], place: usize, last: u32) -> Option<&[u32]> {
    let first = *words.get(place)?;
    let kind = first >> 28;
    let length = match kind {
        EDGE => edge_words::<B>(),
        LINK => LINK_WORDS,
        ENTRY => entry_words::<B>(),
        END => 1,
        _ => return None,
    };
    let record = words.get(place..place + length)?;
    let zero_bits = match kind {
        LINK => first & 0x0f00_0000,
        ENTRY => record[1] & 0x0fff_f000,
        END => first & 0x0fff_ffff,
        _ => 0,
    };
    let misplaced_end = kind == END && place + 1 != words.len();
    (kind >= last && zero_bits == 0 && !misplaced_end).then_some(record)
}

/// The records read so far, and by port what questions 6 and 7 ask about.
struct Reader<B> {
    fabric: Fabric<B>,
    is_edge: [bool; PORTS],
    is_link_end: [bool; PORTS],
    entries_at: [u8; PORTS],
}

/// Questions 4 to 7 of one record, and before them what question 3 asks of an
/// entry's transfer.
impl<B: Bits> Reader<B> {
    fn new(openflow: OpenFlow) -> Reader<B> {
        Reader {
            fabric: Fabric {
                openflow,
                ..Fabric::default()
            },
            is_edge: [false; PORTS],
            is_link_end: [false; PORTS],
            entries_at: [0; PORTS],
        }
    }

    fn edge(&mut self, place: usize, record: &[u32]) -> Result<(), Refusal> {
        let edge = Edge {
            group: (record[0] >> 12) as u16,
            port: low_port(record[0]),
            admitted: set_of(&record[1..]),
        };
        let edges = &mut self.fabric.edges;
        let rising = edges.last().is_none_or(|last| last.port < edge.port);
        ask(4, place, edge.port != 0 && rising)?;
        ask(5, place, edge.admitted.is_proper())?;
        ask(7, place, edges.len() < MOST_EDGES)?;
        self.is_edge[usize::from(edge.port)] = true;
        edges.push(edge);
        Ok(())
    }

    fn link(&mut self, place: usize, record: &[u32]) -> Result<(), Refusal> {
        let link = Link {
            from: low_port(record[0] >> 12),
            to: low_port(record[0]),
        };
        let (from, to) = (usize::from(link.from), usize::from(link.to));
        let links = &mut self.fabric.links;
        let rising = links.last().is_none_or(|last| last.from < link.from);
        ask(4, place, from != 0 && to != 0 && rising && from != to)?;
        let at_edge = self.is_edge[from] || self.is_edge[to];
        ask(6, place, !at_edge && !self.is_link_end[to])?;
        ask(7, place, links.len() < MOST_LINKS)?;
        self.is_link_end[to] = true;
        links.push(link);
        Ok(())
    }

    fn entry(&mut self, place: usize, record: &[u32]) -> Result<(), Refusal> {
        let transfer = Transfer::numbered(record[1] >> 28).ok_or(Refusal::new(3, place))?;
        let entry = Entry {
            priority: (record[0] >> 12) as u16,
            in_port: low_port(record[0]),
            out_port: low_port(record[1]),
            matching: set_of(&record[2..]),
            transfer,
            rewrite: Rewrite::to(set_of(&record[2 + 2 * B::WORDS..])),
        };
        let entries = &mut self.fabric.entries;
        let entries_here = &mut self.entries_at[usize::from(entry.in_port)];
        let here = usize::from(*entries_here);
        let ports_differ = entry.in_port != entry.out_port;
        ask(4, place, entry.in_port != 0 && ports_differ)?;
        let proper = entry.matching.is_proper() && entry.rewrite.written().is_proper();
        ask(5, place, proper)?;
        let within = entries.len() < B::MOST_ENTRIES && here < MOST_ENTRIES_PER_IN_PORT;
        ask(7, place, within)?;
        *entries_here += 1;
        entries.push(entry);
        Ok(())
    }
}

/// The port in bits 11..0.
fn low_port(word: u32) -> u16 {
    (word & 0xfff) as u16
}

/// The first of these words as a set: care, then value.
pub(crate) fn set_of<B: Bits>(words: &[u32]) -> Set<B> {
    let (care, value) = words[..2 * B::WORDS].split_at(B::WORDS);
    Set {
        care: B::from_slice(care),
        value: B::from_slice(value),
    }
}

/// Adds a set's words: care, then value.
pub(crate) fn push_set<B: Bits>(words: &mut Vec<u32>, set: &Set<B>) {
    words.extend(set.care.to_words().as_ref());
    words.extend(set.value.to_words().as_ref());
}

fn edge_record<B: Bits>(edge: &Edge<B>) -> Vec<u32> {
    let first = EDGE << 28 | u32::from(edge.group) << 12 | port_bits(edge.port);
    let mut record = vec![first];
    push_set(&mut record, &edge.admitted);
    record
}

fn link_record(link: &Link) -> u32 {
    LINK << 28 | port_bits(link.from) << 12 | port_bits(link.to)
}

fn entry_record<B: Bits>(entry: &Entry<B>) -> Vec<u32> {
    let first = ENTRY << 28 | u32::from(entry.priority) << 12 | port_bits(entry.in_port);
    let second = (entry.transfer as u32) << 28 | port_bits(entry.out_port);
    let mut record = vec![first, second];
    push_set(&mut record, &entry.matching);
    push_set(&mut record, &entry.rewrite.written());
    record
}

fn port_bits(port: u16) -> u32 {
    u32::from(port) & 0xfff
}
