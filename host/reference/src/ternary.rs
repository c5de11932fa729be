//! The back-trace once more, slow, with header sets as strings of 0, 1 and x
//! and without indexes. It writes down every unit and find in turn, so one
//! telling has the answer for every budget.

use crate::bits::Bits;
use crate::calls::{answer_words, Query};
use crate::fabric::{Edge, Entry, Fabric, PORTS};
use crate::set::Set;
use crate::transfer::Transfer;

/// Byte `i` is a `0`, `1` or `x` for bit `i` in document 01's order, from word 0
/// bit 31: the first 32 are nw_src, the next 32 nw_dst. The second half is `x` in
/// version 1; in version 2 it has dl_src first.
pub type Ternary = [u8; 256];

/// How a part is carved by a set.
pub type Carve = fn(&Ternary, &Ternary) -> Vec<Ternary>;

/// What happens in a back-trace.
#[derive(Clone, Debug, PartialEq, Eq)]
pub enum Event {
    Unit,
    Find {
        edge: usize,
        entries: Vec<usize>,
        set: Box<Ternary>,
    },
}

/// The events of the whole back-trace; none if there are more than `most`.
pub fn events<B: Bits>(
    fabric: &Fabric<B>,
    query: &Query<B::Words>,
    most: usize,
) -> Option<Vec<Event>> {
    events_by(undo, fabric, query, most)
}

/// The same where entries are undone in this way, right or wrong.
pub fn events_by<B: Bits>(
    undo: impl FnMut(&Entry<B>, &Ternary) -> Option<Ternary>,
    fabric: &Fabric<B>,
    query: &Query<B::Words>,
    most: usize,
) -> Option<Vec<Event>> {
    events_carved_by(carved, undo, fabric, query, most)
}

/// The same where parts are carved in this way, too.
pub fn events_carved_by<B: Bits>(
    carved: Carve,
    undo: impl FnMut(&Entry<B>, &Ternary) -> Option<Ternary>,
    fabric: &Fabric<B>,
    query: &Query<B::Words>,
    most: usize,
) -> Option<Vec<Event>> {
    let mut teller = Teller {
        carved,
        undo,
        fabric,
        most,
        path: Vec::new(),
        events: Vec::new(),
    };
    let asked = from_set(&query.asked());
    match query.is_of_the_lost() {
        true => teller.lost(&asked, query.limit)?,
        false => teller.stop(query.port, &asked, query.limit)?,
    }
    Some(teller.events)
}

/// The verdict's words by these events; none if the budget doesn't do.
pub fn verdict<B: Bits>(
    fabric: &Fabric<B>,
    query: &Query<B::Words>,
    events: &[Event],
) -> Option<Vec<u32>> {
    let target = fabric
        .edges
        .iter()
        .find(|edge| u32::from(edge.port) == query.port)?;
    let mut words = vec![0; answer_words::<B>()];
    for event in events {
        match event {
            Event::Unit if words[1] == query.budget => return None,
            Event::Unit => words[1] += 1,
            Event::Find { edge, entries, set } => {
                let edge = &fabric.edges[*edge];
                if let Some(header) = foreign(edge, target, set) {
                    words[0] = 1;
                    words[2] = u32::from(edge.port);
                    words[3] = entries.len() as u32;
                    let header = words_where::<B>(&header, b'1');
                    let entries = entries.iter().map(|&entry| entry as u32);
                    let shown = header.into_iter().chain(entries);
                    words
                        .iter_mut()
                        .skip(4)
                        .zip(shown)
                        .for_each(|(word, shown)| *word = shown);
                    return Some(words);
                }
            }
        }
    }
    Some(words)
}

/// The list's words by these events; none if the budget doesn't do.
pub fn list<B: Bits>(
    fabric: &Fabric<B>,
    query: &Query<B::Words>,
    events: &[Event],
) -> Option<Vec<u32>> {
    let units = events.iter().filter(|event| **event == Event::Unit).count();
    if units > query.budget as usize {
        return None;
    }
    let mut words = Vec::new();
    for event in events {
        if let Event::Find { edge, entries, set } = event {
            let port = u32::from(fabric.edges[*edge].port);
            words.push(0x6000_0000 + 4096 * entries.len() as u32 + port);
            words.extend(entries.iter().map(|&entry| 0x7000_0000 + entry as u32));
            let [zeros, ones] = [b'0', b'1'].map(|trit| words_where::<B>(set, trit));
            words.extend(zeros.iter().zip(&ones).map(|(zeros, ones)| zeros + ones));
            words.extend(ones);
        }
    }
    Some(words)
}

struct Teller<'f, B, U> {
    carved: Carve,
    undo: U,
    fabric: &'f Fabric<B>,
    most: usize,
    /// The entries in travelling order.
    path: Vec<usize>,
    events: Vec<Event>,
}

impl<B: Bits, U: FnMut(&Entry<B>, &Ternary) -> Option<Ternary>> Teller<'_, B, U> {
    fn tell(&mut self, event: Event) -> Option<()> {
        self.events.push(event);
        (self.events.len() <= self.most).then_some(())
    }

    /// Port after port, where there is an edge or a link's end.
    fn lost(&mut self, asked: &Ternary, left: u32) -> Option<()> {
        let Fabric {
            edges,
            links,
            entries,
            ..
        } = self.fabric;
        for port in 1..PORTS as u16 {
            let at_edge = edges.iter().any(|edge| edge.port == port);
            if at_edge || links.iter().any(|link| link.to == port) {
                let here = entries.iter().filter(|entry| entry.in_port == port);
                let matches: Vec<_> = here.map(|entry| from_set(&entry.matching)).collect();
                self.carve(port, asked, &matches, left)?;
            }
        }
        Some(())
    }

    fn stop(&mut self, out_port: u32, wanted: &Ternary, left: u32) -> Option<()> {
        for (number, entry) in self.fabric.entries.iter().enumerate() {
            if u32::from(entry.out_port) != out_port {
                continue;
            }
            self.tell(Event::Unit)?;
            let undone = (self.undo)(entry, wanted);
            if let Some(part) = undone.and_then(|set| both(&set, &from_set(&entry.matching))) {
                self.path.insert(0, number);
                self.carve(entry.in_port, &part, &self.beaters(number), left)?;
                self.path.remove(0);
            }
        }
        Some(())
    }

    fn carve(
        &mut self,
        in_port: u16,
        part: &Ternary,
        beaters: &[Ternary],
        left: u32,
    ) -> Option<()> {
        let Some((beater, others)) = beaters.split_first() else {
            return self.survived(in_port, part, left);
        };
        self.tell(Event::Unit)?;
        for piece in (self.carved)(part, beater) {
            self.carve(in_port, &piece, others, left)?;
        }
        Some(())
    }

    fn survived(&mut self, in_port: u16, part: &Ternary, left: u32) -> Option<()> {
        let edges = &self.fabric.edges;
        if let Some(edge) = edges.iter().position(|edge| edge.port == in_port) {
            return self.tell(Event::Find {
                edge,
                entries: self.path.clone(),
                set: Box::new(*part),
            });
        }
        match self.fabric.links.iter().find(|link| link.to == in_port) {
            Some(link) if left > 1 => self.stop(u32::from(link.from), part, left - 1),
            _ => Some(()),
        }
    }

    /// The matches of the entries that beat this one, in file order.
    fn beaters(&self, number: usize) -> Vec<Ternary> {
        let entries = &self.fabric.entries;
        let beaten = &entries[number];
        let beats =
            |entry: &&Entry<B>| entry.in_port == beaten.in_port && entry.priority > beaten.priority;
        let beaters = entries.iter().filter(beats);
        beaters.map(|entry| from_set(&entry.matching)).collect()
    }
}

pub fn from_set<B: Bits>(set: &Set<B>) -> Ternary {
    let mut ternary = [b'x'; 256];
    let numbers = (0..32 * B::WORDS as u32).rev();
    for (trit, number) in ternary.iter_mut().zip(numbers) {
        *trit = match (set.care.has(number), set.value.has(number)) {
            (false, _) => b'x',
            (true, false) => b'0',
            (true, true) => b'1',
        };
    }
    ternary
}

/// A header's words with a 1 wherever this byte stands.
fn words_where<B: Bits>(ternary: &Ternary, wanted: u8) -> Vec<u32> {
    let word = |trits: &[u8]| {
        trits
            .iter()
            .fold(0, |word, &trit| word * 2 + u32::from(trit == wanted))
    };
    ternary.chunks(32).take(B::WORDS).map(word).collect()
}

/// Whether some bit is 0 in one and 1 in the other.
fn apart(one: &Ternary, other: &Ternary) -> bool {
    let mut bits = one.iter().zip(other);
    bits.any(|(&a, &b)| a != b && a != b'x' && b != b'x')
}

fn both(one: &Ternary, other: &Ternary) -> Option<Ternary> {
    let mut meet = *one;
    for (trit, &b) in meet.iter_mut().zip(other) {
        if *trit == b'x' {
            *trit = b;
        }
    }
    (!apart(one, other)).then_some(meet)
}

/// The rewrite is undone first, then what came before it.
pub fn undo<B: Bits>(entry: &Entry<B>, wanted: &Ternary) -> Option<Ternary> {
    undo_transfer(entry, &undo_rewrite(entry, wanted)?)
}

pub fn undo_rewrite<B: Bits>(entry: &Entry<B>, wanted: &Ternary) -> Option<Ternary> {
    let written = from_set(&entry.rewrite.written());
    let mut before = *wanted;
    for (trit, &b) in before.iter_mut().zip(&written) {
        if b != b'x' {
            *trit = b'x';
        }
    }
    (!apart(wanted, &written)).then_some(before)
}

/// Of each bit of nw_src and the same one of nw_dst: what they were before.
pub fn undo_transfer<B>(entry: &Entry<B>, wanted: &Ternary) -> Option<Ternary> {
    let mut before = *wanted;
    for src in 0..32 {
        let dst = src + 32;
        (before[src], before[dst]) = match entry.transfer {
            Transfer::None => (wanted[src], wanted[dst]),
            Transfer::Copy => (joined(wanted[src], wanted[dst])?, b'x'),
            Transfer::Swap => (wanted[dst], wanted[src]),
        };
    }
    Some(before)
}

/// What is wanted of one bit that has to be both.
pub fn joined(one: u8, other: u8) -> Option<u8> {
    match (one, other) {
        (b'x', wanted) | (wanted, b'x') => Some(wanted),
        (b'0', b'0') | (b'1', b'1') => Some(one),
        _ => None,
    }
}

/// If undoing this entry joins two wanted bits into one, whether they agree, and
/// all others that it joins.
pub fn joins_agree<B: Bits>(entry: &Entry<B>, wanted: &Ternary) -> Option<bool> {
    let wanted = undo_rewrite(entry, wanted)?;
    let of_both = wanted[..32].iter().zip(&wanted[32..64]);
    let mut joined = of_both.filter(|(&src, &dst)| src != b'x' && dst != b'x');
    let joins = entry.transfer == Transfer::Copy && joined.clone().count() > 0;
    joins.then(|| joined.all(|(src, dst)| src == dst))
}

/// What is left of a part without what another set has.
pub fn carved(part: &Ternary, by: &Ternary) -> Vec<Ternary> {
    if apart(part, by) {
        return vec![*part];
    }
    let mut parts = Vec::new();
    let mut stem = *part;
    for i in 0..stem.len() {
        if stem[i] == b'x' && by[i] != b'x' {
            let mut opposite = stem;
            opposite[i] = if by[i] == b'0' { b'1' } else { b'0' };
            parts.push(opposite);
            stem[i] = by[i];
        }
    }
    parts
}

/// The lowest foreign header of a find's first foreign part.
fn foreign<B: Bits>(edge: &Edge<B>, target: &Edge<B>, set: &Ternary) -> Option<Ternary> {
    if edge.group != target.group {
        return Some(*set);
    }
    carved(set, &from_set(&edge.admitted)).first().copied()
}
