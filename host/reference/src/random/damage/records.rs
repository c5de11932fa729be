//! Damage to what a record says: questions 4 to 7.

use super::{refused, unused_ports, Damage, Damaged};
use crate::bits::Bits;
use crate::fabric::{Edge, Entry, Fabric, Link, MOST_EDGES, MOST_ENTRIES_PER_IN_PORT, MOST_LINKS};
use crate::file::{edge_words, entry_words, write};
use crate::random::parts::tidy;
use crate::random::source::Rng;

fn edge_place<B: Bits>(edge: usize) -> usize {
    1 + edge * edge_words::<B>()
}

fn link_place<B: Bits>(fabric: &Fabric<B>, link: usize) -> usize {
    edge_place::<B>(fabric.edges.len()) + link
}

fn entry_place<B: Bits>(fabric: &Fabric<B>, entry: usize) -> usize {
    link_place(fabric, fabric.links.len()) + entry * entry_words::<B>()
}

pub(super) fn wrong_edge_port<B: Bits>(
    how: Damage,
    mut fabric: Fabric<B>,
    rng: &mut Rng<B>,
) -> Damaged {
    let edges = &mut fabric.edges;
    let any = rng.below(edges.len());
    let second = rng.between(1, edges.len() - 1);
    let wrong = match how {
        Damage::EdgePortZero => any,
        _ => second,
    };
    match how {
        Damage::EdgePortZero => edges[any].port = 0,
        Damage::EdgesFalling => edges.swap(second - 1, second),
        _ => edges[second].port = edges[second - 1].port,
    }
    refused(write(&fabric), 4, edge_place::<B>(wrong))
}

pub(super) fn wrong_link_port<B: Bits>(
    how: Damage,
    mut fabric: Fabric<B>,
    rng: &mut Rng<B>,
) -> Damaged {
    let links = &mut fabric.links;
    let any = rng.below(links.len());
    let second = rng.between(1, links.len() - 1);
    let wrong = match how {
        Damage::LinksFalling | Damage::LinksEqual => second,
        _ => any,
    };
    match how {
        Damage::LinkFromZero => links[any].from = 0,
        Damage::LinkToZero => links[any].to = 0,
        Damage::LinksFalling => links.swap(second - 1, second),
        Damage::LinksEqual => links[second].from = links[second - 1].from,
        _ => links[any].to = links[any].from,
    }
    refused(write(&fabric), 4, link_place(&fabric, wrong))
}

pub(super) fn wrong_entry_port<B: Bits>(
    how: Damage,
    mut fabric: Fabric<B>,
    rng: &mut Rng<B>,
) -> Damaged {
    let number = rng.below(fabric.entries.len());
    let entry = &mut fabric.entries[number];
    match how {
        Damage::EntryInPortZero => entry.in_port = 0,
        _ => entry.out_port = entry.in_port,
    }
    refused(write(&fabric), 4, entry_place(&fabric, number))
}

pub(super) fn value_outside<B: Bits>(how: Damage, fabric: Fabric<B>, rng: &mut Rng<B>) -> Damaged {
    improper(how, fabric, rng, |rng, care, value| {
        let bit = B::bit(rng.below(32 * B::WORDS) as u32);
        (care & !bit, value | bit)
    })
}

/// One of the "bits that must be zero in care and mask" isn't; its value is either.
pub(super) fn zero_bit_cared_for<B: Bits>(
    how: Damage,
    fabric: Fabric<B>,
    rng: &mut Rng<B>,
) -> Damaged {
    improper(how, fabric, rng, |rng, care, value| {
        let bit = rng.one_of([0, 1, 2, 3, 4, 5, 6, 7].map(B::bit)) & B::ZERO_BITS;
        (care | bit, value | rng.one_of([bit, B::NONE]))
    })
}

/// Spoils care and value of an admitted set, of a match or of a rewrite.
fn improper<B: Bits>(
    how: Damage,
    mut fabric: Fabric<B>,
    rng: &mut Rng<B>,
    spoil: impl Fn(&mut Rng<B>, B, B) -> (B, B),
) -> Damaged {
    let edge = rng.below(fabric.edges.len());
    let entry = rng.below(fabric.entries.len());
    let (place, care, value) = match how {
        Damage::EdgeValueOutside | Damage::EdgeZeroBits => {
            let set = &mut fabric.edges[edge].admitted;
            (edge_place::<B>(edge), &mut set.care, &mut set.value)
        }
        Damage::MatchValueOutside | Damage::MatchZeroBits => {
            let place = entry_place(&fabric, entry);
            let set = &mut fabric.entries[entry].matching;
            (place, &mut set.care, &mut set.value)
        }
        _ => {
            let place = entry_place(&fabric, entry);
            let rewrite = &mut fabric.entries[entry].rewrite;
            (place, &mut rewrite.mask, &mut rewrite.value)
        }
    };
    (*care, *value) = spoil(rng, *care, *value);
    refused(write(&fabric), 5, place)
}

pub(super) fn link_misplaced<B: Bits>(
    how: Damage,
    mut fabric: Fabric<B>,
    rng: &mut Rng<B>,
) -> Damaged {
    let edge_port = fabric.edges[rng.below(fabric.edges.len())].port;
    let second = rng.between(1, fabric.links.len() - 1);
    let first = fabric.links[rng.below(second)];
    match how {
        Damage::LinkFromEdge => {
            let to = fabric.links.remove(second).to;
            let from = edge_port;
            fabric.links.push(Link { from, to });
            tidy(&mut fabric);
            let is_it = |link: &Link| link.from == from;
            let place = fabric.links.iter().position(is_it).unwrap_or(0);
            refused(write(&fabric), 6, link_place(&fabric, place))
        }
        Damage::LinkToEdge => {
            fabric.links[second].to = edge_port;
            refused(write(&fabric), 6, link_place(&fabric, second))
        }
        _ => {
            fabric.links[second].to = first.to;
            // A link to itself is question 4's, which comes before.
            let to_itself = fabric.links[second].from == first.to;
            let number = if to_itself { 4 } else { 6 };
            refused(write(&fabric), number, link_place(&fabric, second))
        }
    }
}

pub(super) fn too_many_edges_or_links<B: Bits>(
    how: Damage,
    mut fabric: Fabric<B>,
    rng: &mut Rng<B>,
) -> Damaged {
    let mut ports = unused_ports(&fabric, rng).into_iter();
    let mut port = || ports.next().unwrap_or(1);
    fabric.entries.truncate(B::MOST_ENTRIES - 1);
    let place = match how {
        Damage::EdgeTooMany => {
            while fabric.edges.len() <= MOST_EDGES {
                fabric.edges.push(Edge::open(1, port()));
            }
            edge_place::<B>(MOST_EDGES)
        }
        _ => {
            while fabric.links.len() <= MOST_LINKS {
                let (from, to) = (port(), port());
                fabric.links.push(Link { from, to });
            }
            link_place(&fabric, MOST_LINKS)
        }
    };
    tidy(&mut fabric);
    refused(write(&fabric), 7, place)
}

pub(super) fn too_many_entries<B: Bits>(
    how: Damage,
    mut fabric: Fabric<B>,
    rng: &mut Rng<B>,
) -> Damaged {
    if how == Damage::EntryTooMany {
        let ports = unused_ports(&fabric, rng).into_iter();
        let lacking = B::MOST_ENTRIES + 1 - fabric.entries.len();
        fabric
            .entries
            .extend(ports.take(lacking).map(|port| Entry::plain(1, port, 0)));
        // Room for one entry more than the largest file has.
        fabric.links.truncate(MOST_LINKS - entry_words::<B>());
        let place = entry_place(&fabric, B::MOST_ENTRIES);
        return refused(write(&fabric), 7, place);
    }
    let most = MOST_ENTRIES_PER_IN_PORT;
    fabric.entries.truncate(B::MOST_ENTRIES - most - 1);
    let entry = fabric.entries[rng.below(fabric.entries.len())];
    let here = |other: &Entry<B>| other.in_port == entry.in_port;
    while fabric.entries.iter().filter(|&other| here(other)).count() <= most {
        let to = rng.below(fabric.entries.len() + 1);
        fabric.entries.insert(to, entry);
    }
    let mut numbers = (0..).zip(&fabric.entries).filter(|(_, other)| here(other));
    let last = numbers.nth(most).map_or(0, |(number, _)| number);
    refused(write(&fabric), 7, entry_place(&fabric, last))
}
