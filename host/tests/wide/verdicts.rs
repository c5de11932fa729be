//! Verdicts.

use reference::file::write;
use reference::random::{any, query, wide_cases};
use reference::ways::{Packet, LEFT, TIED};
use reference::wide::{Fabric, Query};
use reference::{Bits, Wide};

use crate::calls::{agreed, ROOM, VERDICT};
use crate::common::Seen;

/// What is shown arrives by its own entries; its run may be tied. Some have Ethernet
/// bits that aren't 0, and some leave with others.
#[test]
fn random_fabrics() {
    let [isolated, reached, tied, shown, rewritten]: [Seen; 5] = Default::default();
    wide_cases(13_000_000, 8000, |rng| {
        let fabric = any(rng);
        let file = write(&fabric);
        for _ in 0..3 {
            let asked = query(rng, &fabric, 20_000);
            let any_room = rng.below(130);
            let lent = rng.one_of([ROOM, ROOM, ROOM + 1, ROOM - 1, any_room]);
            let Ok(words) = agreed(VERDICT, &file, lent, &asked) else {
                continue;
            };
            if words[0] == 0 {
                isolated.add(1);
                continue;
            }
            let (packet, entries) = shown_in(&fabric, &asked, &words);
            let way = packet.follow(entries).expect("each entry may take it");
            assert!(way.arrives(&asked));
            reached.add(1);
            tied.add(is_tied(&packet, entries).into());
            shown.add((packet.header.ethernet != 0).into());
            rewritten.add((packet.header.ethernet != way.header.ethernet).into());
        }
    });
    for seen in [isolated, reached, tied] {
        seen.at_least(1000);
    }
    shown.at_least(500);
    rewritten.at_least(200);
}

/// The packet that a verdict shows, and the entries of its way.
fn shown_in<'f, 'w>(
    fabric: &'f Fabric,
    asked: &Query,
    words: &'w [u32],
) -> (Packet<'f, Wide>, &'w [u32]) {
    let (header, entries) = words[4..].split_at(Wide::WORDS);
    let packet = Packet {
        fabric,
        start: words[2] as u16,
        header: Wide::from_slice(header),
        limit: asked.limit,
    };
    (packet, &entries[..words[3] as usize])
}

/// Whether its run is, somewhere on the way by these entries; else it leaves.
fn is_tied(packet: &Packet<Wide>, entries: &[u32]) -> bool {
    let run = packet.run();
    assert!(entries.starts_with(&run.entries));
    assert!([Some(LEFT), Some(TIED)].contains(&run.fate));
    run.fate == Some(TIED)
}

/// Just below its count a budget isn't enough; at it and above, it is.
#[test]
fn budgets_around_the_count() {
    let counted = Seen::default();
    wide_cases(13_100_000, 4000, |rng| {
        let fabric = any(rng);
        let file = write(&fabric);
        let asked = Query {
            budget: 50_000,
            ..query(rng, &fabric, 1)
        };
        let Ok(words) = agreed(VERDICT, &file, ROOM, &asked) else {
            return;
        };
        let count = words[1];
        for budget in [0, count.saturating_sub(1), count, count + 1, u32::MAX] {
            let judged = agreed(VERDICT, &file, ROOM, &Query { budget, ..asked });
            let expected = if budget < count {
                Err((13, 0))
            } else {
                Ok(words.clone())
            };
            assert_eq!(judged, expected, "a budget of {budget}");
        }
        counted.add((count > 0).into());
    });
    counted.at_least(1000);
}
