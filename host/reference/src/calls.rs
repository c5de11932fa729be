//! The three calls "on byte slices and numbers", with questions 8 to 13, "each call
//! per version" (2.6) by its query; for the list with document 02's target 0 (2.7).

use std::ops::ControlFlow;

use crate::bits::{Bits, Words};
use crate::fabric::{Edge, Fabric, OpenFlow};
use crate::file;
use crate::forward;
use crate::index::Index;
use crate::refusal::{ask, Refusal};
use crate::set::Set;
use crate::trace::{trace, Ended, Find, MOST_HOPS, NOWHERE};

/// Words 1 to 11 of the program's query, or 1 to 19 in version 2.
#[derive(Clone, Copy, Debug, PartialEq, Eq)]
pub struct Query<W = [u32; 4]> {
    /// The target, 0 for a list of the packets that are lost; or a run's start.
    pub port: u32,
    pub limit: u32,
    /// Unused by a run.
    pub budget: u32,
    pub care: W,
    pub value: W,
}

impl<W: Words> Query<W> {
    /// All wild.
    pub fn wild(port: u32, limit: u32, budget: u32) -> Query<W> {
        Query {
            port,
            limit,
            budget,
            care: W::default(),
            value: W::default(),
        }
    }

    /// A run's, which cares for all bits that may be cared for.
    pub fn packet(start: u32, limit: u32, header: W::Bits) -> Query<W> {
        Query::wild(start, limit, 0).about(Set::only(header))
    }

    /// The asked set; a run's is its header alone.
    pub fn asked(&self) -> Set<W::Bits> {
        Set::of_words(self.care, self.value)
    }

    /// Whether it is one for the packets that are lost: "the list accepts target 0".
    pub fn is_of_the_lost(&self) -> bool {
        self.port == u32::from(NOWHERE)
    }

    /// The same query of the packets that are lost.
    pub fn of_the_lost(self) -> Query<W> {
        Query {
            port: NOWHERE.into(),
            ..self
        }
    }

    /// The same query about this set.
    pub fn about(self, asked: Set<W::Bits>) -> Query<W> {
        Query {
            care: asked.care.to_words(),
            value: asked.value.to_words(),
            ..self
        }
    }
}

/// The words that a verdict or a run fills: four, the header and 16 entries.
pub const fn answer_words<B: Bits>() -> usize {
    4 + B::WORDS + MOST_HOPS
}

/// The kinds of the list's words.
const FIND: u32 = 6;
const TAKEN: u32 = 7;

/// Is the target isolated?
pub fn verdict<W: Words>(file: &[u8], area: &mut [u8], query: &Query<W>) -> u64 {
    answered::<W::Bits>(file, area, |fabric, lent| judge(fabric, lent, query))
}

/// Every find.
pub fn list<W: Words>(file: &[u8], area: &mut [u8], query: &Query<W>) -> u64 {
    answered::<W::Bits>(file, area, |fabric, lent| gather(fabric, lent, query))
}

/// One packet's way.
pub fn run<W: Words>(file: &[u8], area: &mut [u8], query: &Query<W>) -> u64 {
    answered::<W::Bits>(file, area, |fabric, lent| travel(fabric, lent, query))
}

/// "Success has number 0 and as place the words written. Bytes past those
/// stay; after a no every lent byte stays."
fn answered<B: Bits>(
    file: &[u8],
    area: &mut [u8],
    words: impl FnOnce(&Fabric<B>, usize) -> Result<Vec<u32>, Refusal>,
) -> u64 {
    match file::read_as(file).and_then(|fabric| words(&fabric, area.len())) {
        Ok(words) => {
            for (lent, word) in area.chunks_exact_mut(4).zip(&words) {
                lent.copy_from_slice(&word.to_le_bytes());
            }
            Refusal::new(0, words.len()).code()
        }
        Err(refusal) => refusal.code(),
    }
}

/// The words written, or number and place of the no.
pub type Answer = Result<Vec<u32>, (u8, u64)>;

/// What a call has answered, by its code and the area.
pub fn read_answer(code: u64, area: &[u8]) -> Answer {
    let (number, place) = ((code % 256) as u8, code / 256);
    match number {
        0 => Ok(file::to_le_words(&area[..4 * place as usize])),
        _ => Err((number, place)),
    }
}

/// Questions 8, 9, 10 and 12, then the trace for 13.
fn judge<B: Bits>(
    fabric: &Fabric<B>,
    lent: usize,
    query: &Query<B::Words>,
) -> Result<Vec<u32>, Refusal> {
    let target = edge_port(fabric, query)?;
    let limit = bounds(query)?;
    ask(12, 0, lent >= answer_words::<B>() * 4)?;
    let mut reached = Vec::new();
    let visit = |find: &Find<B>| {
        let edge = &fabric.edges[find.edge];
        match foreign_header(find, edge, target) {
            Some(header) => {
                reached = answer(edge.port, find.entries, header);
                ControlFlow::Break(())
            }
            None => ControlFlow::Continue(()),
        }
    };
    match trace_back(fabric, target.port, limit, query, visit) {
        Ended::Whole(units) => {
            let mut words = vec![0; answer_words::<B>()];
            words[1] = units;
            Ok(words)
        }
        Ended::Stopped(units) => {
            reached[0] = 1;
            reached[1] = units;
            Ok(reached)
        }
        Ended::Spent => Err(Refusal::new(13, 0)),
    }
}

/// Questions 8, 9 and 10, then the trace for 13, then question 12. Words that
/// don't fit any more are only counted.
fn gather<B: Bits>(
    fabric: &Fabric<B>,
    lent: usize,
    query: &Query<B::Words>,
) -> Result<Vec<u32>, Refusal> {
    let target = listed_port(fabric, query)?;
    let limit = bounds(query)?;
    let room = lent / 4;
    let mut words = Vec::new();
    let mut needed: u64 = 0;
    let visit = |find: &Find<B>| {
        needed += find_words(find) as u64;
        if needed <= room as u64 {
            list_find(find, fabric.edges[find.edge].port, &mut words);
        }
        ControlFlow::Continue(())
    };
    let ended = trace_back(fabric, target, limit, query, visit);
    ask(13, 0, ended != Ended::Spent)?;
    ask(12, 0, needed <= room as u64)?;
    Ok(words)
}

/// A list's count: "the units that would be made, were there no budget, until no
/// entry or trial is left", if the query's budget has as many. The query is in
/// range.
pub fn count<B: Bits>(fabric: &Fabric<B>, query: &Query<B::Words>) -> Option<u32> {
    let (target, limit) = (query.port as u16, query.limit as usize);
    let visit = |_: &Find<B>| ControlFlow::Continue(());
    match trace_back(fabric, target, limit, query, visit) {
        Ended::Whole(units) => Some(units),
        _ => None,
    }
}

/// Questions 9, 10, 11 and 12, then the packet run.
fn travel<B: Bits>(
    fabric: &Fabric<B>,
    lent: usize,
    query: &Query<B::Words>,
) -> Result<Vec<u32>, Refusal> {
    let asked = query.asked();
    let limit = limit(query)?;
    ask(10, 0, asked.is_proper() && asked.care == !B::ZERO_BITS)?;
    let start = fabric.edge(query.port).ok_or(Refusal::new(11, 0))?;
    ask(12, 0, lent >= answer_words::<B>() * 4)?;
    let run = forward::run(fabric, start.port, asked.value, limit);
    let entries: Vec<u16> = run.entries.iter().map(|&entry| entry as u16).collect();
    let mut words = answer(run.port, &entries, run.header);
    words[0] = run.fate as u32;
    Ok(words)
}

/// Question 8 of a verdict: "is the target an edge port?"
fn edge_port<'f, B: Bits>(
    fabric: &'f Fabric<B>,
    query: &Query<B::Words>,
) -> Result<&'f Edge<B>, Refusal> {
    fabric.edge(query.port).ok_or(Refusal::new(8, 0))
}

/// Question 8 of a list: "under 1.0 .. the list accepts target 0", "under 1.3,
/// target 0 still fails question 8".
fn listed_port<B: Bits>(fabric: &Fabric<B>, query: &Query<B::Words>) -> Result<u16, Refusal> {
    match (fabric.openflow, query.is_of_the_lost()) {
        (OpenFlow::V1_0, true) => Ok(NOWHERE),
        _ => edge_port(fabric, query).map(|edge| edge.port),
    }
}

/// Questions 9 and 10 of a verdict or list: the limit.
fn bounds<W: Words>(query: &Query<W>) -> Result<usize, Refusal> {
    let limit = limit(query)?;
    ask(10, 0, query.asked().is_proper())?;
    Ok(limit)
}

/// The trace of what the query asks for.
fn trace_back<B: Bits>(
    fabric: &Fabric<B>,
    target: u16,
    limit: usize,
    query: &Query<B::Words>,
    visit: impl FnMut(&Find<B>) -> ControlFlow<()>,
) -> Ended {
    let index = Index::new(fabric);
    let (asked, budget) = (query.asked(), query.budget);
    trace(&index, target, limit, asked, budget, visit)
}

/// Question 9: "Is the hop limit 1 to 16?"
fn limit<W: Words>(query: &Query<W>) -> Result<usize, Refusal> {
    let limit = query.limit as usize;
    ask(9, 0, (1..=MOST_HOPS).contains(&limit))?;
    Ok(limit)
}

/// The foreign packet that the verdict returns: "in a foreign group the find's
/// lowest header, else the lowest of the first part of the find carved by the
/// admitted set".
fn foreign_header<B: Bits>(find: &Find<B>, edge: &Edge<B>, target: &Edge<B>) -> Option<B> {
    if edge.group != target.group {
        return Some(find.set.lowest());
    }
    let first = find.set.carve(&edge.admitted).next();
    first.map(|part| part.lowest())
}

/// The words that a verdict and a run have in common: words 0 and 1 are left 0,
/// then port, hops, header and entries (16).
fn answer<B: Bits>(port: u16, entries: &[u16], header: B) -> Vec<u32> {
    let mut words = vec![0, 0, u32::from(port), entries.len() as u32];
    words.extend(header.to_words().as_ref());
    words.extend(entries.iter().map(|&entry| u32::from(entry)));
    words.resize(answer_words::<B>(), 0);
    words
}

/// The words that this find takes in the list.
fn find_words<B: Bits>(find: &Find<B>) -> usize {
    1 + find.entries.len() + 2 * B::WORDS
}

/// "Word of kind 6 (bits 27..12 hops, 11..0 edge port); for each entry in
/// travelling order a word of kind 7 with its number below; care (4), value
/// (4)", or eight each.
fn list_find<B: Bits>(find: &Find<B>, port: u16, words: &mut Vec<u32>) {
    let hops = find.entries.len() as u32;
    words.push(FIND << 28 | hops << 12 | u32::from(port));
    words.extend(
        find.entries
            .iter()
            .map(|&entry| TAKEN << 28 | u32::from(entry)),
    );
    file::push_set(words, &find.set);
}
