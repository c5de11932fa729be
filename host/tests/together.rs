//! The three calls against each other, by the typed wrappers, and against plain
//! forwarding under every choice among equals.

mod common;

use common::{to_host, transfers, Seen};
use mwishovala::{list_growing, run, verdict, Fabric, Fate, Find, Header, HeaderSet, Verdict};
use reference::file::write;
use reference::random::{any, cases, list_query, packet, Rng};
use reference::set::from_words;
use reference::ways::Packet;
use reference::Query;

const MOST_AREA: usize = 4 << 20;
/// So many finds of a list are looked at one by one.
const MOST_FINDS: usize = 100;
/// Packets with more ends than this are left out.
const MOST_ENDS: usize = 500;

/// What was asked of a fabric, and the finds.
struct Listed<'f> {
    made: &'f reference::Fabric,
    file: &'f [u8],
    asked: &'f Query,
    finds: &'f [Find],
}

impl Listed<'_> {
    fn packet(&self, port: u16, header: &Header) -> Packet<'_> {
        Packet {
            fabric: self.made,
            start: port,
            header: from_words(header.0),
            limit: self.asked.limit,
        }
    }

    /// A find's header arrives, or is lost if those are asked for, by the find's
    /// entries, each of which may take it in its turn. Its run is the same, or tied
    /// on the way. Gives whether it is.
    fn arrives(&self, find: &Find, header: &Header) -> bool {
        let entries = numbers(find);
        let way = self.packet(find.port, header).follow(&entries);
        let way = way.expect("each entry may take it");
        assert!(way.arrives(self.asked));
        assert_eq!(find.hops as usize, entries.len());
        let run = run(self.file, find.port.into(), *header, self.asked.limit).unwrap();
        if run.fate == Fate::Tied {
            assert!(run.hops < find.hops && find.entries.starts_with(&run.entries));
            return true;
        }
        assert_eq!(run.fate == Fate::Lost, self.asked.is_of_the_lost());
        assert!(matches!(run.fate, Fate::Left | Fate::Lost));
        assert_eq!((run.hops, run.entries), (find.hops, find.entries));
        assert_eq!((run.port, from_words(run.header.0)), (way.port, way.header));
        false
    }

    /// The finds that this packet is in.
    fn holding<'s>(&'s self, port: u16, header: &'s Header) -> impl Iterator<Item = &'s Find> {
        let holds = move |find: &&Find| find.port == port && find.set.contains(header);
        self.finds.iter().filter(holds)
    }

    /// Each way of a packet that arrives is in one find, and the packet in no
    /// other. Gives how many they are.
    fn is_in_as_many_finds(&self, port: u16, header: &Header) -> usize {
        let Some(ends) = self.packet(port, header).ends(MOST_ENDS) else {
            return 0;
        };
        let arriving = ends.into_iter().filter(|end| end.arrives(self.asked));
        let mut ways: Vec<Vec<u32>> = arriving.map(|end| end.entries).collect();
        let mut found: Vec<Vec<u32>> = self.holding(port, header).map(numbers).collect();
        ways.sort();
        found.sort();
        assert_eq!(found, ways);
        found.len()
    }
}

fn numbers(find: &Find) -> Vec<u32> {
    find.entries.iter().map(|&entry| entry.into()).collect()
}

/// Any header of a set.
fn one_of(set: &HeaderSet, rng: &mut Rng) -> Header {
    let word = |place: usize| set.value[place] | rng.draw() as u32 & !set.care[place];
    Header([0, 1, 2, 3].map(word))
}

/// Whether a find has a foreign packet.
fn is_foreign(fabric: &Fabric, find: &Find, target: u16) -> bool {
    let (edge, target) = (
        fabric.edge(find.port).unwrap(),
        fabric.edge(target).unwrap(),
    );
    edge.group != target.group || !find.set.is_within(&edge.admitted)
}

/// Lists of random fabrics, as far as there are such.
fn on_lists(first: u64, check: impl Fn(&Listed, &mut Rng)) {
    cases(first, 10_000, |rng| {
        let made = any(rng);
        let file = write(&made);
        let asked = Query {
            budget: 20_000,
            ..list_query(rng, &made, 1)
        };
        let mut area = Vec::new();
        let Ok(finds) = list_growing(&file, &mut area, MOST_AREA, &to_host(&asked)) else {
            return;
        };
        let listed = Listed {
            made: &made,
            file: &file,
            asked: &asked,
            finds: &finds.collect::<Vec<_>>(),
        };
        check(&listed, rng);
    });
}

#[test]
fn finds_arrive_by_their_own_ways() {
    let [listed, lost, tied, moved]: [Seen; 4] = Default::default();
    on_lists(6_000_000, |list, rng| {
        for find in list.finds.iter().take(MOST_FINDS) {
            for header in [find.set.lowest(), one_of(&find.set, rng)] {
                tied.add(list.arrives(find, &header).into());
            }
            moved.add(transfers(list.made, &find.entries).into());
        }
        match list.asked.is_of_the_lost() {
            true => lost.add(list.finds.len()),
            false => listed.add(list.finds.len()),
        }
    });
    for seen in [listed, lost, tied, moved] {
        seen.at_least(10_000);
    }
}

#[test]
fn every_way_is_in_one_find() {
    let [once, twice, lost]: [Seen; 3] = Default::default();
    on_lists(6_100_000, |list, rng| {
        for _ in 0..10 {
            let asked = packet(rng, list.made);
            let near = (asked.port as u16, Header(asked.value));
            let found = rng.pick(list.finds);
            let found = found.map(|find| (find.port, one_of(&find.set, rng)));
            let (port, header) = found.filter(|_| rng.once_in(2)).unwrap_or(near);
            if list.made.edge(port.into()).is_some() {
                let finds = list.is_in_as_many_finds(port, &header);
                once.add((finds == 1).into());
                twice.add((finds > 1).into());
                lost.add((list.asked.is_of_the_lost() && finds > 0).into());
            }
        }
    });
    once.at_least(5000);
    twice.at_least(1000);
    lost.at_least(1000);
}

#[test]
fn the_verdict_is_the_first_foreign_find() {
    let (isolated, reached) = (Seen::default(), Seen::default());
    on_lists(6_200_000, |list, _| {
        if list.asked.is_of_the_lost() {
            return;
        }
        let fabric = Fabric::read(list.file).unwrap();
        let target = list.asked.port as u16;
        let mut finds = list.finds.iter();
        let first_foreign = finds.find(|find| is_foreign(&fabric, find, target));
        match verdict(list.file, &to_host(list.asked)).unwrap() {
            Verdict::Isolated { .. } => {
                assert_eq!(first_foreign, None);
                isolated.add(1);
            }
            Verdict::Reached {
                port,
                hops,
                header,
                entries,
                ..
            } => {
                let by_them = |find: &&Find| find.entries == entries && find.hops == hops;
                let shown: Vec<&Find> = list.holding(port, &header).filter(by_them).collect();
                assert_eq!(shown.len(), 1, "the packet is in one find by its way");
                assert_eq!(Some(shown[0]), first_foreign);
                reached.add(1);
            }
            other => panic!("{other:?} is no verdict of document 01"),
        }
    });
    isolated.at_least(500);
    reached.at_least(500);
}
