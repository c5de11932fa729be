//! The naive checks find what is wrong in lists of the lost, and in runs, of
//! programs that take table misses in other ways than document 02's 2.7 says.

mod common;

use common::{answer, Seen};
use reference::brute::{arrivals, check_list, check_run, ends, finds, headers, Find};
use reference::brute::{BUDGET, MOST_WAYS};
use reference::file::write;
use reference::query::LENT_BYTES;
use reference::random::{cases, leaky_ring, small, small_query, ties};
use reference::ways::{Packet, DROPPED, LOST};
use reference::{list, Fabric, Header, OpenFlow, Query, Set};

/// A list of the lost that was asked for.
struct Asked<'f> {
    fabric: &'f Fabric,
    query: Query,
}

impl Asked<'_> {
    /// The finds of the same list with another limit and another asked set.
    fn listed(&self, limit: u32, asked: Set) -> Option<Vec<Find>> {
        let query = Query {
            limit,
            ..self.query.about(asked)
        };
        let words = answer(list, &write(self.fabric), 16 * LENT_BYTES, &query);
        finds(&words.ok()?)
    }
}

/// What a wrong program finds; none if it can't be told here.
type Wrong = fn(&Asked, &[Find]) -> Option<Vec<Find>>;

/// The finds that are such.
fn only(finds: &[Find], such: impl Fn(&Find) -> bool) -> Option<Vec<Find>> {
    Some(finds.iter().filter(|find| such(find)).cloned().collect())
}

/// These with another entry in the place of one on a find's way, if there is one.
fn by_another_entry(finds: &[Find], entries: usize, place: fn(&Find) -> usize) -> Vec<Find> {
    let mut finds = finds.to_vec();
    let far = finds.iter_mut().find(|find| !find.entries.is_empty());
    if let Some(find) = far {
        let place = place(find);
        find.entries[place] = (find.entries[place] + 1) % entries as u32;
    }
    finds
}

/// What is wrong with a program.
const WRONGS: [(&str, Wrong); 11] = [
    ("a find is missing", |_, finds| {
        Some(finds.split_first()?.1.to_vec())
    }),
    ("a find is there twice", |_, finds| {
        Some([finds, &finds[..1.min(finds.len())]].concat())
    }),
    ("by another entry at first", |asked, finds| {
        let number = asked.fabric.entries.len();
        Some(by_another_entry(finds, number, |_| 0))
    }),
    ("by another entry at last", |asked, finds| {
        let number = asked.fabric.entries.len();
        let last = |find: &Find| find.entries.len() - 1;
        Some(by_another_entry(finds, number, last))
    }),
    ("one hop too far", |asked, _| {
        let further = asked.query.limit + 1;
        asked.listed(further, asked.query.asked())
    }),
    ("one hop too few", |asked, finds| {
        let limit = asked.query.limit as usize;
        only(finds, |find| find.entries.len() + 1 < limit)
    }),
    ("the header at the start is in the asked set", |asked, _| {
        let mut finds = asked.listed(asked.query.limit, Set::ALL_WILD)?;
        finds.retain_mut(|find| {
            let inside = find.set.intersect(&asked.query.asked());
            inside.inspect(|set| find.set = *set).is_some()
        });
        Some(finds)
    }),
    ("whatever the header is", |asked, _| {
        asked.listed(asked.query.limit, Set::ALL_WILD)
    }),
    ("link ends are left out", |_, finds| {
        only(finds, |find| find.entries.is_empty())
    }),
    ("edge ports are left out", |_, finds| {
        only(finds, |find| !find.entries.is_empty())
    }),
    ("at an edge port all is lost", |asked, finds| {
        let behind_links = finds.iter().filter(|find| !find.entries.is_empty());
        let at_once = asked.fabric.edges.iter().map(|edge| Find {
            port: edge.port,
            entries: vec![],
            set: asked.query.asked(),
        });
        Some(at_once.chain(behind_links.cloned()).collect())
    }),
];

fn words_of(finds: &[Find]) -> Vec<u32> {
    finds.iter().flat_map(Find::words).collect()
}

/// All that stands in the finds, each as often as it does.
fn meaning<'a>(bits: &[u32], finds: &'a [Find]) -> Vec<(u16, Header, &'a [u32])> {
    let mut all = Vec::new();
    for Find { port, entries, set } in finds {
        let mut headers = headers(bits);
        headers.retain(|&header| set.contains(header));
        all.extend(headers.iter().map(|&header| (*port, header, &entries[..])));
    }
    all.sort();
    all
}

/// Each wrong list is noticed exactly if it means something else, which is often.
#[test]
fn wrong_lists_of_the_lost() {
    let noticed: [Seen; WRONGS.len()] = Default::default();
    for (first, make) in [
        (650_000, small as fn(&mut _) -> _),
        (655_000, ties),
        (660_000, leaky_ring),
    ] {
        cases(first, 800, |rng| {
            let mut made = make(rng);
            made.fabric.openflow = OpenFlow::V1_0;
            let query = Query {
                budget: BUDGET,
                ..small_query(rng, &made).of_the_lost()
            };
            let Some(ends) = ends(&made.fabric, &made.bits, query.limit, MOST_WAYS) else {
                return;
            };
            let asked = Asked {
                fabric: &made.fabric,
                query,
            };
            let Some(right) = asked.listed(query.limit, query.asked()) else {
                return;
            };
            let arrivals = arrivals(&ends, &query);
            assert_eq!(check_list(&made.bits, &arrivals, &words_of(&right)), Ok(()));
            for ((wrong, finds), noticed) in WRONGS.iter().zip(&noticed) {
                let Some(finds) = finds(&asked, &right) else {
                    continue;
                };
                let checked = check_list(&made.bits, &arrivals, &words_of(&finds));
                let is_wrong = meaning(&made.bits, &finds) != meaning(&made.bits, &right);
                assert_eq!(checked.is_err(), is_wrong, "{wrong}");
                noticed.count(is_wrong);
            }
        });
    }
    for ((wrong, _), noticed) in WRONGS.iter().zip(noticed) {
        println!("{wrong} {noticed:?}");
        noticed.at_least(50);
    }
}

/// A miss has the fate of the fabric's OpenFlow; the other one's is noticed, and so
/// is a hop for it.
#[test]
fn wrong_runs_of_misses() {
    let [lost, dropped]: [Seen; 2] = Default::default();
    cases(670_000, 800, |rng| {
        let made = small(rng);
        let limit = small_query(rng, &made).limit;
        let Some(all) = ends(&made.fabric, &made.bits, limit, MOST_WAYS) else {
            return;
        };
        for (packet, ends) in &all {
            let run = packet.run();
            let under = |openflow| {
                let fabric = Fabric {
                    openflow,
                    ..made.fabric.clone()
                };
                let fabric = &fabric;
                Packet { fabric, ..*packet }.run().words().unwrap()
            };
            let [old, new] = OpenFlow::ALL.map(under);
            let (right, other) = match made.fabric.openflow {
                OpenFlow::V1_0 => (&old, &new),
                OpenFlow::V1_3 => (&new, &old),
            };
            assert_eq!(run.words().as_ref(), Some(right));
            assert_eq!(check_run(packet, ends, right), Ok(()));
            let is_missed = old != new;
            assert_eq!(check_run(packet, ends, other).is_err(), is_missed);
            if is_missed {
                assert_eq!((old[0], new[0]), (LOST, DROPPED));
                let mut with_a_hop = right.clone();
                with_a_hop[3] += 1;
                assert!(check_run(packet, ends, &with_a_hop).is_err());
            }
            lost.count(is_missed && made.fabric.openflow == OpenFlow::V1_0);
            dropped.count(is_missed && made.fabric.openflow == OpenFlow::V1_3);
        }
    });
    lost.at_least(1000);
    dropped.at_least(1000);
}
