//! The typed calls: what the words say, and no panic whatever the bytes.

mod common;

use std::cell::RefCell;

use common::{product_alone, RUN};
use mwishovala::text::{pack, show};
use mwishovala::{run, Fabric, Fate, Header};
use reference::file::{read, to_le_words, write};
use reference::random::{any, cases, damage, inflict, packet, Damage};

/// What is said if the bytes give no reason.
const NO_REASON: &str = "it got a no";

#[test]
fn each_damage_has_its_reason() {
    for (number, how) in (0..).zip(Damage::ALL) {
        cases(7_000_000 + 1000 * number, 60, |rng| {
            let file = inflict(how, &write(&any(rng)), rng).bytes;
            check_accept(&file);
        });
    }
}

#[test]
fn files_damaged_more_than_once() {
    cases(7_100_000, 4000, |rng| {
        let mut file = write(&any(rng));
        for _ in 0..rng.between(2, 4) {
            file = damage(&file, rng);
        }
        check_accept(&file);
    });
}

/// Accepted and read as the reference reads it, or refused with a reason.
fn check_accept(file: &[u8]) {
    match (Fabric::read(file), read(file)) {
        (Ok(fabric), Ok(_)) => {
            assert_eq!(fabric.to_bytes().unwrap(), file);
            assert_eq!(pack(&show(&fabric)).unwrap(), file);
        }
        (Err(refusal), Err(expected)) => {
            assert_eq!(refusal.question.number(), expected.number);
            assert_eq!(refusal.place, expected.place as u64);
            assert_ne!(refusal.reason, NO_REASON);
        }
        (one, other) => panic!("{one:?}, but the reference {other:?}"),
    }
}

#[test]
fn bytes_at_random() {
    cases(7_200_000, 5000, |rng| {
        let length = rng.below(200);
        let mut file: Vec<u8> = (0..length).map(|_| rng.draw() as u8).collect();
        check_accept(&file);
        if length >= 8 {
            let start = reference::file::start_word(length / 4);
            file[..4].copy_from_slice(&start.to_le_bytes());
            file.truncate(length / 4 * 4);
            check_accept(&file);
        }
        let _ = run(
            &file,
            rng.draw() as u32,
            Header::<4>::default(),
            rng.draw() as u32,
        );
    });
}

/// By their numbers.
const FATES: [Fate; 5] = [
    Fate::Left,
    Fate::Dropped,
    Fate::Lost,
    Fate::Travelling,
    Fate::Tied,
];

/// A run's typed answer says what its words say.
#[test]
fn runs_are_read_right() {
    let told = RefCell::new([0; FATES.len()]);
    cases(7_300_000, 2000, |rng| {
        let fabric = any(rng);
        let file = write(&fabric);
        let asked = packet(rng, &fabric);
        if asked.care != [u32::MAX; 4] {
            return;
        }
        let (code, area) = product_alone(RUN, &file, 96, &asked);
        match run(&file, asked.port, Header(asked.value), asked.limit) {
            Ok(run) => {
                let words = to_le_words(&area);
                assert_eq!(run.fate, FATES[words[0] as usize]);
                told.borrow_mut()[words[0] as usize] += 1;
                assert_eq!(u32::from(run.port), words[2]);
                assert_eq!(run.hops, words[3]);
                assert_eq!(run.header.0, words[4..8]);
                let entries: Vec<u32> = run.entries.iter().map(|&entry| entry.into()).collect();
                assert_eq!(entries, words[8..8 + run.hops as usize]);
            }
            Err(refusal) => {
                assert_eq!(
                    refusal.place * 256 + u64::from(refusal.question.number()),
                    code
                );
                assert_ne!(refusal.reason, NO_REASON);
            }
        }
    });
    let replayed = std::env::var_os("SEED").is_some();
    assert!(replayed || told.borrow().iter().all(|&times| times > 20));
}

mod trace {
    use super::*;
    use common::{to_host, LIST, VERDICT};
    use mwishovala::{
        list, verdict, Find, HeaderSet, OpenFlow, Question, Refusal, Target, Verdict,
    };
    use reference::random::query;

    /// The typed answers say what the words say.
    #[test]
    fn verdicts_and_lists_are_read_right() {
        cases(7_400_000, 2000, |rng| {
            let made = any(rng);
            let mut file = write(&made);
            if rng.once_in(4) {
                file = damage(&file, rng);
            }
            let asked = query(rng, &made, 5000);
            let (code, area) = product_alone(VERDICT, &file, 96, &asked);
            match verdict(&file, &to_host(&asked)) {
                Ok(verdict) => assert_eq!(words_of(&verdict), to_le_words(&area)),
                Err(refusal) => check_refusal(&refusal, code),
            }
            let room = 1 << 16;
            let (code, area) = product_alone(LIST, &file, room, &asked);
            let mut lent = vec![0; room];
            match list(&file, &mut lent, &to_host(&asked)) {
                Ok(finds) => {
                    let words: Vec<u32> = finds.flat_map(|find| find_words(&find)).collect();
                    assert_eq!(words, to_le_words(&area[..4 * (code / 256) as usize]));
                }
                Err(refusal) => check_refusal(&refusal, code),
            }
        });
    }

    /// This file under that OpenFlow.
    fn under(openflow: OpenFlow, file: &[u8]) -> Vec<u8> {
        let fabric = Fabric::read(file).unwrap();
        Fabric { openflow, ..fabric }.to_bytes().unwrap()
    }

    /// Of each find of what is lost a packet is followed to where no entry takes it,
    /// and its run says the same, under either OpenFlow.
    #[test]
    fn packets_are_lost_where_the_host_says() {
        // Lost where they start, behind a link, and by a choice among equals.
        let times = RefCell::new([0; 3]);
        cases(7_500_000, 1500, |rng| {
            let made = any(rng);
            let file = under(OpenFlow::V1_0, &write(&made));
            let asked = mwishovala::Query {
                port: Target::Lost.number(),
                ..to_host(&query(rng, &made, 5000))
            };
            let mut lent = vec![0; 1 << 16];
            for find in list(&file, &mut lent, &asked).into_iter().flatten() {
                let is_tied = check_lost(&file, &find, &asked);
                let kind = usize::from(find.hops > 0) + usize::from(is_tied);
                times.borrow_mut()[kind.min(2)] += 1;
            }
        });
        let replayed = std::env::var_os("SEED").is_some();
        assert!(replayed || times.borrow().iter().all(|&times| times > 20));
    }

    /// Whether its packet's run is tied before.
    fn check_lost(file: &[u8], find: &Find, asked: &mwishovala::Query) -> bool {
        let fabric = Fabric::read(file).unwrap();
        let header = find.set.lowest();
        let way = fabric.hops(&header, &find.entries).unwrap();
        assert!(way.iter().all(|hop| hop.takers.contains(&hop.number)));
        let then = way
            .last()
            .map_or(header, |last| last.entry.action_on(&last.header));
        let miss = fabric.miss(find).unwrap();
        assert!(miss.set.contains(&then) && asked.asked.contains(&then));
        assert_eq!(fabric.takers(miss.in_port, &then), []);
        let newer = under(OpenFlow::V1_3, file);
        let mut is_tied = false;
        for (file, fate) in [(file, Fate::Lost), (&newer, Fate::Dropped)] {
            let fabric = Fabric::read(file).unwrap();
            let run = run(file, find.port.into(), header, asked.hops).unwrap();
            is_tied = run.fate == Fate::Tied;
            assert_eq!(fabric.missed(&run), !is_tied);
            if !is_tied {
                assert_eq!((run.fate, run.port), (fate, miss.in_port));
                assert_eq!((run.header, run.entries), (then, find.entries));
            }
        }
        is_tied
    }

    /// A run is missed exactly where no entry takes its packet.
    #[test]
    fn runs_are_missed_where_no_entry_takes_them() {
        let times = RefCell::new([[0; 2]; FATES.len()]);
        cases(7_600_000, 3000, |rng| {
            let made = any(rng);
            let asked = packet(rng, &made);
            for openflow in [OpenFlow::V1_0, OpenFlow::V1_3] {
                let file = under(openflow, &write(&made));
                let fabric = Fabric::read(&file).unwrap();
                let ended = run(&file, asked.port, Header(asked.value), asked.limit);
                let Ok(ended) = ended else { return };
                let missed = fabric.missed(&ended);
                let may_be = match openflow {
                    OpenFlow::V1_0 => ended.fate == Fate::Lost,
                    _ => ended.fate == Fate::Dropped,
                };
                let last = ended
                    .entries
                    .last()
                    .map(|&entry| &fabric.entries[usize::from(entry)]);
                let by_an_entry = last.is_some_and(|entry| entry.out_port == 0);
                assert_eq!(missed, may_be && !by_an_entry);
                assert!(!missed || fabric.takers(ended.port, &ended.header).is_empty());
                let fate = FATES.iter().position(|fate| *fate == ended.fate).unwrap();
                times.borrow_mut()[fate][usize::from(missed)] += 1;
            }
        });
        let times = times.into_inner();
        let replayed = std::env::var_os("SEED").is_some();
        assert!(
            replayed || times[1].iter().all(|&times| times > 20),
            "{times:?}"
        );
        assert!(
            replayed || (times[2][1] > 20 && times[2][0] == 0),
            "{times:?}"
        );
    }

    /// Target 0 is for a list of OpenFlow 1.0 alone.
    #[test]
    fn what_is_lost_is_asked_of_a_list() {
        let file = pack("edge 1 group 7 admits any").unwrap();
        let lost = mwishovala::Query::lost();
        assert_eq!(lost.target(), Target::Lost);
        assert_eq!(
            mwishovala::Query::<4>::all_wild(3).target(),
            Target::Port(3)
        );
        let mut area = [0; 36];
        let finds: Vec<Find> = list(&file, &mut area, &lost).unwrap().collect();
        assert_eq!((finds.len(), finds[0].port, finds[0].hops), (1, 1, 0));
        assert_eq!(
            (&finds[0].entries[..], finds[0].set),
            (&[][..], HeaderSet::ALL_WILD)
        );
        let newer = under(OpenFlow::V1_3, &file);
        let refused = [
            (
                verdict(&file, &lost).unwrap_err(),
                "target 0 is what is lost, which only a list can be asked about",
            ),
            (
                list(&newer, &mut area, &lost).unwrap_err(),
                "target 0 is what is lost, and under OpenFlow 1.3 nothing is: \
                 what no entry takes is dropped, as its run says",
            ),
            (
                list(&file, &mut area, &mwishovala::Query::all_wild(2)).unwrap_err(),
                "the target, port 2, is no edge port",
            ),
        ];
        for (refusal, reason) in &refused {
            assert_eq!(refusal.question, Question::Target);
            assert_eq!(refusal.reason, *reason);
        }
        assert_eq!(verdict(&newer, &lost).unwrap_err(), refused[1].0);
    }

    fn check_refusal(refusal: &Refusal, code: u64) {
        assert_eq!(
            refusal.place * 256 + u64::from(refusal.question.number()),
            code
        );
        assert_ne!(refusal.reason, NO_REASON);
    }

    fn words_of(verdict: &Verdict) -> Vec<u32> {
        let mut words = match verdict {
            Verdict::Isolated { units, .. } => vec![0, *units],
            Verdict::Reached {
                units,
                port,
                hops,
                header,
                entries,
                ..
            } => {
                let mut words = vec![1, *units, u32::from(*port), *hops];
                words.extend(header.0);
                words.extend(entries.iter().map(|&entry| u32::from(entry)));
                words
            }
            other => panic!("{other:?} is no verdict of document 01"),
        };
        words.resize(24, 0);
        words
    }

    fn find_words(find: &mwishovala::Find) -> Vec<u32> {
        let mut words = vec![6 << 28 | find.hops << 12 | u32::from(find.port)];
        words.extend(find.entries.iter().map(|&entry| 7 << 28 | u32::from(entry)));
        words.extend(find.set.care);
        words.extend(find.set.value);
        words
    }
}
