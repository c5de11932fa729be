//! Plain forwarding of one packet under every choice among equals: document
//! 01's "Forwarding" and document 02's 2.3, 2.5 and 2.7, sentence by sentence. It
//! takes only the plain records from the rest, and knows nothing of a trace.

use crate::bits::Bits;
use crate::calls::{answer_words, Query};
use crate::fabric::{Entry, Fabric, OpenFlow};
use crate::set::{Header, Rewrite, Set};
use crate::transfer::Transfer;

/// Word 0 of a run.
pub const LEFT: u32 = 0;
pub const DROPPED: u32 = 1;
pub const LOST: u32 = 2;
pub const TRAVELLING: u32 = 3;
pub const TIED: u32 = 4;

/// How far a packet has come, by one choice at each hop.
#[derive(Clone, Debug, PartialEq, Eq)]
pub struct Way<B = Header> {
    /// None while the packet goes on.
    pub fate: Option<u32>,
    /// The in-port; at the end what word 2 of a run says.
    pub port: u16,
    pub header: B,
    /// The entries that took it, in travelling order; their numbers.
    pub entries: Vec<u32>,
}

impl<B: Bits> Way<B> {
    fn ended(self, fate: u32) -> Way<B> {
        Way {
            fate: Some(fate),
            ..self
        }
    }

    /// Whether it is an end at the target, with a header in the asked set. With
    /// target 0 that is an end of "the packets lost": "with a header in the asked
    /// set, after zero or more hops and fewer than the limit".
    pub fn arrives(&self, query: &Query<B::Words>) -> bool {
        let is_there = match query.port {
            0 => self.fate == Some(LOST),
            target => self.fate == Some(LEFT) && u32::from(self.port) == target,
        };
        is_there && holds(&query.asked(), self.header)
    }

    /// The words of a packet run that ended like this.
    pub fn words(&self) -> Option<Vec<u32>> {
        let hops = self.entries.len() as u32;
        let mut words = vec![self.fate?, 0, u32::from(self.port), hops];
        words.extend(self.header.to_words().as_ref());
        words.extend(&self.entries);
        words.resize(answer_words::<B>(), 0);
        Some(words)
    }
}

/// A packet that is sent into a fabric, for at most `limit` hops, 1 to 16.
#[derive(Clone, Copy, Debug)]
pub struct Packet<'f, B = Header> {
    pub fabric: &'f Fabric<B>,
    pub start: u16,
    pub header: B,
    pub limit: u32,
}

impl<'f, B: Bits> Packet<'f, B> {
    /// The packet that a run's query asks about, if that is in range.
    pub fn asked(fabric: &'f Fabric<B>, query: &Query<B::Words>) -> Packet<'f, B> {
        Packet {
            fabric,
            start: query.port as u16,
            header: query.asked().value,
            limit: query.limit,
        }
    }

    /// Its ends under every choice, "chosen afresh at each hop": each once, in
    /// the order of the entries taken. None if there are more than `most`.
    pub fn ends(&self, most: usize) -> Option<Vec<Way<B>>> {
        let mut ends = Vec::new();
        // The way that is followed next stands last.
        let mut open = vec![self.at_start()];
        while let Some(way) = open.pop() {
            if way.fate.is_some() {
                ends.push(way);
                continue;
            }
            let takers = takers(self.fabric, way.port, way.header);
            if ends.len() + open.len() + takers.len().max(1) > most {
                return None;
            }
            for &number in takers.iter().rev() {
                open.push(self.taken(way.clone(), number));
            }
            if takers.is_empty() {
                ends.push(self.missed(way));
            }
        }
        Some(ends)
    }

    /// Its run: as long as one entry alone may take the packet, that one does.
    /// "A run that meets two such entries stops with fate 4."
    pub fn run(&self) -> Way<B> {
        let mut way = self.at_start();
        while way.fate.is_none() {
            way = match takers(self.fabric, way.port, way.header)[..] {
                [] => self.missed(way),
                [only] => self.taken(way, only),
                _ => way.ended(TIED),
            };
        }
        way
    }

    /// The same by all its ends: the only one, or where the ways part.
    pub fn run_by(&self, ends: &[Way<B>]) -> Option<Way<B>> {
        let (first, others) = ends.split_first()?;
        if others.is_empty() {
            return Some(first.clone());
        }
        let taken_in_all = |hop: &usize| {
            let taken = |way: &Way<B>| way.entries.get(*hop).copied();
            others.iter().all(|way| taken(way) == taken(first))
        };
        let shared = (0..first.entries.len()).take_while(taken_in_all).count();
        let way = self.follow(&first.entries[..shared])?;
        Some(way.ended(TIED))
    }

    /// Its way if these entries take it in turn, ended if no other may after them;
    /// none unless each of them may.
    pub fn follow(&self, entries: &[u32]) -> Option<Way<B>> {
        let mut way = self.at_start();
        for &number in entries {
            let takers = takers(self.fabric, way.port, way.header);
            if way.fate.is_some() || !takers.contains(&number) {
                return None;
            }
            way = self.taken(way, number);
        }
        let missed = way.fate.is_none() && takers(self.fabric, way.port, way.header).is_empty();
        Some(if missed { self.missed(way) } else { way })
    }

    fn at_start(&self) -> Way<B> {
        Way {
            fate: None,
            port: self.start,
            header: self.header,
            entries: Vec::new(),
        }
    }

    /// "Under 1.3 a packet no entry takes has fate 1 with its in-port and no further
    /// hop. Under 1.0 it has fate 2."
    fn missed(&self, way: Way<B>) -> Way<B> {
        way.ended(match self.fabric.openflow {
            OpenFlow::V1_0 => LOST,
            OpenFlow::V1_3 => DROPPED,
        })
    }

    /// "It rewrites, and one hop is made. Out-port 0: dropped. An out-port that
    /// is some link's from-port: the packet goes on at the to-port. Any other:
    /// it leaves there." "Still travelling: the limit's hops are made and a
    /// link leads on, whatever stands there."
    fn taken(&self, mut way: Way<B>, number: u32) -> Way<B> {
        let entry = &self.fabric.entries[number as usize];
        way.header = rewritten(entry, transferred(entry, way.header));
        way.entries.push(number);
        if entry.out_port == 0 {
            return way.ended(DROPPED);
        }
        let mut links = self.fabric.links.iter();
        let Some(link) = links.find(|link| link.from == entry.out_port) else {
            way.port = entry.out_port;
            return way.ended(LEFT);
        };
        way.port = link.to;
        match way.entries.len() as u32 == self.limit {
            true => way.ended(TRAVELLING),
            false => way,
        }
    }
}

/// "Any matching entry of the highest priority may take the packet": their
/// numbers.
pub fn takers<B: Bits>(fabric: &Fabric<B>, in_port: u16, header: B) -> Vec<u32> {
    let matches = |entry: &Entry<B>| entry.in_port == in_port && holds(&entry.matching, header);
    let numbered = (0..).zip(&fabric.entries);
    let matching = numbered.filter(|(_, entry)| matches(entry));
    let highest = matching.clone().map(|(_, entry)| entry.priority).max();
    matching
        .filter(|(_, entry)| Some(entry.priority) == highest)
        .map(|(number, _)| number)
        .collect()
}

/// "A header is in it if it equals the value on every care bit."
pub fn holds<B: Bits>(set: &Set<B>, header: B) -> bool {
    header & set.care == set.value & set.care
}

/// "1 to copy nw_src over nw_dst or 2 to swap them, before the rewrite."
fn transferred<B: Bits>(entry: &Entry<B>, header: B) -> B {
    let mut words = header.to_words();
    let words_now = words.as_mut();
    match entry.transfer {
        Transfer::None => {}
        Transfer::Copy => words_now[1] = words_now[0],
        Transfer::Swap => words_now.swap(0, 1),
    }
    B::from_words(words)
}

/// "Masked bits become the value's, others stay."
fn rewritten<B: Bits>(entry: &Entry<B>, header: B) -> B {
    let Rewrite { mask, value } = entry.rewrite;
    let (mut words, mask, value) = (header.to_words(), mask.to_words(), value.to_words());
    for (number, word) in words.as_mut().iter_mut().enumerate() {
        let (mask, value) = (mask.as_ref()[number], value.as_ref()[number]);
        for bit in (0..32).map(|place| 1 << place) {
            let from = if mask & bit == 0 { *word } else { value };
            *word = *word & !bit | from & bit;
        }
    }
    B::from_words(words)
}
