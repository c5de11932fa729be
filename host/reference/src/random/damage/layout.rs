//! Damage to the file's length, start and layout: questions 1 to 3.

use super::{refused, Damage, Damaged};
use crate::bits::Bits;
use crate::fabric::{Fabric, OpenFlow};
use crate::file::{
    edge_words, entry_words, start_of, to_le_bytes, to_le_words, write, END, ENTRY, LINK,
    LINK_WORDS,
};
use crate::random::source::Rng;

/// The start's bits with the file's word count.
const COUNT: u32 = 0xffff;
/// Those with its version.
const VERSION: u32 = 0x7ff << 16;

/// A file as its records, the start and the end among them.
pub(super) struct File {
    pub(super) records: Vec<Vec<u32>>,
}

impl File {
    pub(super) fn new<B: Bits>(fabric: &Fabric<B>) -> File {
        let words = to_le_words(&write(fabric));
        let mut records = vec![vec![words[0]]];
        let edges = fabric.edges.iter().map(|_| edge_words::<B>());
        let links = fabric.links.iter().map(|_| LINK_WORDS);
        let entries = fabric.entries.iter().map(|_| entry_words::<B>());
        let mut place = 1;
        for length in edges.chain(links).chain(entries).chain([1]) {
            records.push(words[place..place + length].to_vec());
            place += length;
        }
        File { records }
    }

    /// The number of this record's first word.
    pub(super) fn place(&self, record: usize) -> usize {
        self.records[..record].iter().map(Vec::len).sum()
    }

    pub(super) fn end(&self) -> usize {
        self.records.len() - 1
    }

    /// The records of this kind, by index.
    pub(super) fn of_kind(&self, kind: u32) -> Vec<usize> {
        let is = |record: &usize| self.records[*record][0] >> 28 == kind;
        (0..self.records.len()).filter(is).collect()
    }

    pub(super) fn words(&self) -> Vec<u32> {
        self.records.concat()
    }

    /// The file with its count set right.
    pub(super) fn counted(&self) -> Vec<u8> {
        let mut words = self.words();
        words[0] = words[0] & !COUNT | words.len() as u32;
        to_le_bytes(&words)
    }

    pub(super) fn refused(&self, number: u8, place: usize) -> Damaged {
        refused(self.counted(), number, place)
    }
}

pub(super) fn wrong_length<B: Bits>(how: Damage, file: File, rng: &mut Rng<B>) -> Damaged {
    let mut words = file.words();
    if how == Damage::TooLong {
        words.resize(rng.between(B::MOST_BYTES / 4 + 1, 16_400), END << 28);
        if rng.once_in(2) {
            words[0] = start_of(B::VERSION, OpenFlow::V1_0, words.len());
        }
        return refused(to_le_bytes(&words), 1, 0);
    }
    let mut bytes = to_le_bytes(&words);
    let over = rng.between(1, 3);
    let length = match how {
        Damage::TooShort => rng.below(8),
        _ if rng.once_in(2) => bytes.len() - over,
        _ => bytes.len() + over,
    };
    bytes.resize(length, 0);
    refused(bytes, 1, 0)
}

pub(super) fn wrong_start<B: Bits>(how: Damage, mut file: File, rng: &mut Rng<B>) -> Damaged {
    let start = file.records[0][0];
    let (count, version) = (start & COUNT, (start & VERSION) >> 16);
    match how {
        Damage::WrongCount => {
            let count = count ^ rng.between(1, 0xffff) as u32;
            file.records[0][0] = start & !COUNT | count;
        }
        Damage::WrongVersion => {
            let version = version ^ rng.between(1, 0x7ff) as u32;
            file.records[0][0] = start & !VERSION | version << 16;
        }
        Damage::MarkedAsVersion1 => file.records[0][0] = start & !VERSION | 1 << 16,
        Damage::NoStart => file.records[0][0] = start ^ (rng.between(1, 15) as u32) << 28,
        _ => {}
    }
    let mut words = file.words();
    match how {
        Damage::Truncated => words.truncate(rng.between(2, words.len() - 1)),
        Damage::Padded => words.extend((0..rng.between(1, 20)).map(|_| END << 28)),
        _ => {}
    }
    let too_long = words.len() > B::MOST_BYTES / 4;
    let number = if too_long { 1 } else { 2 };
    refused(to_le_bytes(&words), number, 0)
}

pub(super) fn wrong_kind<B: Bits>(how: Damage, mut file: File, rng: &mut Rng<B>) -> Damaged {
    let end = file.end();
    match how {
        Damage::UnknownKind => {
            let record = rng.between(1, end);
            // 0, 1, or 6 to 15.
            let kind = (6 + rng.below(12) as u32) % 16;
            let first = &mut file.records[record][0];
            *first = *first & 0x0fff_ffff | kind << 28;
            let place = file.place(record);
            file.refused(3, place)
        }
        Damage::SmallerKind => {
            // An edge or link moves to behind some record of a higher kind.
            let last = file.of_kind(ENTRY)[0] - 1;
            let from = rng.between(1, last);
            let kind = file.records[from][0] >> 28;
            let higher = file.of_kind(kind + 1)[0];
            let moved = file.records.remove(from);
            let to = rng.between(higher, file.end());
            file.records.insert(to, moved);
            let place = file.place(to);
            file.refused(3, place)
        }
        Damage::RecordNotInside => {
            // The last entry loses its last words, and the end is gone.
            file.records.pop();
            let place = file.place(end - 1);
            file.records[end - 1].truncate(rng.between(1, entry_words::<B>() - 1));
            file.refused(3, place)
        }
        _ => {
            file.records.pop();
            let place = file.place(end);
            file.refused(3, place)
        }
    }
}

pub(super) fn stray_zero_bit<B: Bits>(how: Damage, mut file: File, rng: &mut Rng<B>) -> Damaged {
    let (kind, word, low, high) = match how {
        Damage::LinkZeroBits => (LINK, 0, 24, 27),
        Damage::EntryZeroBits => (ENTRY, 1, 12, 27),
        _ => (END, 0, 0, 27),
    };
    let record = *rng.pick(&file.of_kind(kind)).unwrap_or(&0);
    file.records[record][word] |= 1 << rng.between(low, high);
    let place = file.place(record);
    file.refused(3, place)
}

/// 3 to 15, and at times zero bits below it that aren't zero.
pub(super) fn wrong_transfer<B: Bits>(how: Damage, mut file: File, rng: &mut Rng<B>) -> Damaged {
    let record = *rng.pick(&file.of_kind(ENTRY)).unwrap_or(&0);
    let zero_bits = match how {
        Damage::TransferAndZeroBits => rng.between(1, 0xffff) as u32,
        _ => 0,
    };
    let transfer = rng.between(3, 15) as u32;
    let out_port = file.records[record][1] & 0xfff;
    file.records[record][1] = transfer << 28 | zero_bits << 12 | out_port;
    let place = file.place(record);
    file.refused(3, place)
}

pub(super) fn misplaced_end<B: Bits>(how: Damage, mut file: File, rng: &mut Rng<B>) -> Damaged {
    if file.words().len() > B::MOST_BYTES / 4 - entry_words::<B>() {
        file.records.remove(file.end() - 1);
    }
    let end = file.end();
    if how == Damage::EndInTheMiddle {
        let record = rng.between(1, end);
        let place = file.place(record);
        file.records.insert(record, vec![END << 28]);
        return file.refused(3, place);
    }
    let place = file.place(end);
    let more = (0..rng.between(1, 4)).map(|_| rng.draw() as u32);
    file.records.push(more.collect());
    file.refused(3, place)
}
