//! Entries of the same in-port and priority that match the same headers.

#[cfg(test)]
mod tests;

use crate::fabric::Fabric;
use crate::finds::Find;
use crate::header::HeaderSet;
use crate::record::Entry;

/// For each entry of a fabric the others of its in-port and priority whose match
/// meets its own.
#[derive(Clone, Debug)]
pub struct Equals<'f, const N: usize = 4> {
    entries: Vec<(&'f Entry<N>, Vec<Numbered<'f, N>>)>,
}

type Numbered<'f, const N: usize> = (u16, &'f Entry<N>);

impl<'f, const N: usize> Equals<'f, N> {
    /// Those of this fabric.
    pub fn of(fabric: &'f Fabric<N>) -> Equals<'f, N> {
        let with_equals = |(number, entry): Numbered<'f, N>| {
            let others = fabric.numbered().filter(|(other, _)| *other != number);
            let meets = |other: &Entry<N>| other.matching.meets(&entry.matching);
            let equals = others.filter(|(_, other)| other.ranks_with(entry) && meets(other));
            (entry, equals.collect())
        };
        let entries = fabric.numbered().map(with_equals).collect();
        Equals { entries }
    }

    /// For each hop of a find of this fabric the other entries, by their numbers,
    /// that might take its packets too, or some of them: their match meets what
    /// arrives there. No match that beats them does, or it would be no find.
    pub fn along(&self, find: &Find<N>) -> Vec<Vec<u16>> {
        let mut before = Vec::new();
        let at_hop = |&number: &u16| {
            let Some((entry, equals)) = self.entries.get(usize::from(number)) else {
                return Vec::new();
            };
            let met = |other: &Entry<N>| arrive_in(&other.matching, &find.set, &before);
            let met = equals.iter().filter(|(_, other)| met(other));
            let met = met.map(|(other, _)| *other).collect();
            before.push(*entry);
            met
        };
        find.entries.iter().map(at_hop).collect()
    }

    /// Each entry with those equals of it that stand behind it in the file.
    pub(crate) fn pairs(&self) -> impl Iterator<Item = [Numbered<'f, N>; 2]> + '_ {
        let numbered = (0..=u16::MAX).zip(&self.entries);
        numbered.flat_map(|(number, (entry, equals))| {
            let later = equals.iter().filter(move |(other, _)| *other > number);
            later.map(move |&equal| [(number, *entry), equal])
        })
    }
}

/// Whether some headers of a set arrive in another one by this way. What arrives
/// is no header set where addresses are copied; what is wanted, undone, is one.
fn arrive_in<const N: usize>(wanted: &HeaderSet<N>, set: &HeaderSet<N>, way: &[&Entry<N>]) -> bool {
    let mut back = way.iter().rev();
    let at_start = back.try_fold(*wanted, |wanted, entry| entry.action_undone(&wanted));
    at_start.is_some_and(|wanted| wanted.meets(set))
}
