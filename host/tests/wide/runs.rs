//! Packet runs.

use reference::file::write;
use reference::random::{any, packet, wide_cases};
use reference::ways::Packet;

use crate::calls::{agreed, ROOM, RUN};
use crate::common::Seen;

/// Also against plain forwarding; each fate is seen, and Ethernet fields that are
/// rewritten.
#[test]
fn random_packets() {
    let by_fate: [Seen; 5] = Default::default();
    let [refused, rewritten]: [Seen; 2] = Default::default();
    wide_cases(13_500_000, 4000, |rng| {
        let fabric = any(rng);
        let file = write(&fabric);
        for _ in 0..12 {
            let asked = packet(rng, &fabric);
            let lent = rng.one_of([ROOM, ROOM, ROOM, ROOM + 3, ROOM - 1]);
            let Ok(words) = agreed(RUN, &file, lent, &asked) else {
                refused.add(1);
                continue;
            };
            let run = Packet::asked(&fabric, &asked).run();
            assert_eq!(run.words(), Some(words.clone()));
            by_fate[words[0] as usize].add(1);
            rewritten.add((run.header.ethernet != asked.asked().value.ethernet).into());
        }
    });
    for seen in by_fate {
        seen.at_least(500);
    }
    refused.at_least(500);
    rewritten.at_least(500);
}
