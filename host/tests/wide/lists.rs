//! Lists, of what arrives and of what is lost.

use reference::brute::finds_in;
use reference::calls::count;
use reference::file::write;
use reference::random::{any, leaky_ring, list_query, small_query, wide_cases};
use reference::ways::Packet;
use reference::wide::{Fabric, Query};
use reference::{OpenFlow, Wide};

use crate::calls::{agreed, LIST};
use crate::common::Seen;

/// Room for nearly every list that is made here.
const ROOM: usize = 256 << 10;

/// The list with room for all its words, with a byte less, and with other room. Gives
/// its words, if there are some.
fn in_every_room(file: &[u8], asked: &Query) -> Option<Vec<u32>> {
    let words = agreed(LIST, file, ROOM, asked).ok()?;
    let bytes = 4 * words.len();
    assert_eq!(agreed(LIST, file, bytes, asked).as_ref(), Ok(&words));
    if bytes > 0 {
        for short in [bytes - 1, bytes - 4, 0] {
            assert_eq!(agreed(LIST, file, short, asked), Err((12, 0)));
        }
    }
    (bytes > 0).then_some(words)
}

/// The lowest header of each find arrives by its entries.
fn check_finds(fabric: &Fabric, asked: &Query, words: &[u32]) {
    for find in finds_in::<Wide>(words).expect("a list of finds") {
        let packet = Packet {
            fabric,
            start: find.port,
            header: find.set.lowest(),
            limit: asked.limit,
        };
        let way = packet.follow(&find.entries).expect("each may take it");
        assert!(way.arrives(asked), "{find:x?}");
    }
}

/// Some finds care for Ethernet bits.
#[test]
fn random_fabrics() {
    let [found, lost, ethernet]: [Seen; 3] = Default::default();
    wide_cases(13_200_000, 6000, |rng| {
        let fabric = any(rng);
        let file = write(&fabric);
        for _ in 0..2 {
            let asked = list_query(rng, &fabric, 5000);
            let Some(words) = in_every_room(&file, &asked) else {
                continue;
            };
            check_finds(&fabric, &asked, &words);
            let finds = finds_in::<Wide>(&words).unwrap_or_default();
            let cares = finds.iter().any(|find| find.set.care.ethernet != 0);
            found.add(1);
            lost.add(asked.is_of_the_lost().into());
            ethernet.add(cares.into());
        }
    });
    found.at_least(2000);
    lost.at_least(300);
    ethernet.at_least(1000);
}

/// Lists of the lost alone, on rings where packets are lost after many hops.
#[test]
fn lost_on_leaky_rings() {
    let far = Seen::default();
    wide_cases(13_300_000, 2000, |rng| {
        let mut made = leaky_ring(rng);
        made.fabric.openflow = OpenFlow::V1_0;
        let asked = Query {
            budget: 20_000,
            ..small_query(rng, &made).of_the_lost()
        };
        let Some(words) = in_every_room(&write(&made.fabric), &asked) else {
            return;
        };
        check_finds(&made.fabric, &asked, &words);
        let hops = words.iter().filter(|word| *word >> 28 == 6);
        far.add(hops.filter(|word| *word >> 12 & 0xffff >= 3).count().min(1));
    });
    far.at_least(200);
}

/// Just below its count a budget isn't enough; at it and above, it is.
#[test]
fn budgets_around_the_count() {
    let [counted, lost]: [Seen; 2] = Default::default();
    wide_cases(13_400_000, 4000, |rng| {
        let fabric = any(rng);
        let file = write(&fabric);
        let asked = Query {
            budget: 20_000,
            ..list_query(rng, &fabric, 1)
        };
        let Ok(words) = agreed(LIST, &file, ROOM, &asked) else {
            return;
        };
        let count = count(&fabric, &asked).expect("it has ended");
        let bytes = 4 * words.len();
        for budget in [0, count.saturating_sub(1), count, count + 1, u32::MAX] {
            let listed = agreed(LIST, &file, bytes, &Query { budget, ..asked });
            let expected = if budget < count {
                Err((13, 0))
            } else {
                Ok(words.clone())
            };
            assert_eq!(listed, expected, "a budget of {budget}");
        }
        counted.add((count > 0).into());
        lost.add((count > 0 && asked.is_of_the_lost()).into());
    });
    counted.at_least(1000);
    lost.at_least(200);
}
