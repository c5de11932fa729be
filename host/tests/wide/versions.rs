//! Files of one version in the other's calls, and version 1's fabrics in version 2.

use reference::examples::{fabric_f, wide_f};
use reference::file::{start_of, to_le_bytes, write};
use reference::random::{any, cases, list_query, packet, query, wide_cases, Rng};
use reference::wide::{self, widened, widened_answer, widened_list, widened_packet, widened_query};
use reference::{Bits, Fabric, OpenFlow, Query, Wide};

use crate::calls::{self, agreed, CALLS, ROOM};
use crate::common::{self, Seen};

/// Version 1's calls.
const OLD_CALLS: [common::Call; 3] = [common::VERDICT, common::LIST, common::RUN];

/// A file of version 2 that is longer than version 1's can be is 1 in a call of that,
/// a shorter one 2.
#[test]
fn version_2_in_a_call_of_version_1() {
    let [longer, shorter]: [Seen; 2] = Default::default();
    wide_cases(13_800_000, 1000, |rng| {
        let file = write(&any(rng));
        let is_longer = file.len() > 40_200;
        let question = if is_longer { 1 } else { 2 };
        for call in OLD_CALLS {
            let asked = (call.query)(&mut Rng::new(rng.draw()), &Fabric::default(), 100);
            let answer = common::agreed(call, &file, 96, &asked);
            assert_eq!(answer, Err((question, 0)));
        }
        longer.add(is_longer.into());
        shorter.add((!is_longer).into());
    });
    longer.at_least(50);
    shorter.at_least(500);
}

#[test]
fn version_1_in_a_call_of_version_2() {
    cases(13_810_000, 1000, |rng| {
        let file = write(&any(rng));
        for call in CALLS {
            let asked = wide::Query::wild(1, 16, rng.draw() as u32);
            assert_eq!(agreed(call, &file, ROOM, &asked), Err((2, 0)));
        }
    });
}

/// Around both limits, with a start of either version; and the start's own bits.
#[test]
fn lengths_and_starts() {
    for version in [1, 2] {
        for words in [2, 10_049, 10_050, 10_051, 14_945, 14_946, 14_947, 16_000] {
            let mut file = vec![5 << 28; words];
            file[0] = start_of(version, OpenFlow::V1_0, words);
            check_both(&to_le_bytes(&file));
        }
    }
    for upper in (0..16)
        .map(|bit| 0x1002 ^ 1 << bit)
        .chain([0x1001, 0x1801, 0x1802])
    {
        check_both(&to_le_bytes(&[upper << 16 | 2, 5 << 28]));
    }
    for cut in 0..8 {
        check_both(&wide_f()[..cut]);
        check_both(&fabric_f()[..cut]);
    }
}

/// The file in every call of both versions.
fn check_both(file: &[u8]) {
    for call in CALLS {
        let _ = agreed(call, file, ROOM, &wide::Query::wild(1, 1, 1));
    }
    for call in OLD_CALLS {
        let _ = common::agreed(call, file, 96, &Query::wild(1, 1, 1));
    }
}

/// A fabric's file in both versions, if it has no more entries than either may.
fn files(fabric: &Fabric) -> Option<[Vec<u8>; 2]> {
    let few = fabric.entries.len() <= Wide::MOST_ENTRIES;
    few.then(|| [write(fabric), write(&widened(fabric))])
}

/// The words more are 0, and all else is the same: both by the product.
#[test]
fn widened_fabrics() {
    let [judged, listed, ran]: [Seen; 3] = Default::default();
    cases(13_820_000, 3000, |rng| {
        let fabric = any(rng);
        let Some([file, wide_file]) = files(&fabric) else {
            return;
        };
        let asked = query(rng, &fabric, 5000);
        let old = common::agreed(common::VERDICT, &file, 96, &asked);
        let new = agreed(calls::VERDICT, &wide_file, ROOM, &widened_query(&asked));
        judged.add(old.is_ok().into());
        assert_eq!(new, old.map(|words| widened_answer(&words)));

        let asked = list_query(rng, &fabric, 5000);
        let old = common::agreed(common::LIST, &file, 128 << 10, &asked);
        let new = agreed(calls::LIST, &wide_file, 256 << 10, &widened_query(&asked));
        listed.add(old.as_ref().is_ok_and(|words| !words.is_empty()).into());
        if old != Err((12, 0)) {
            assert_eq!(new, old.map(|words| widened_list(&words).expect("finds")));
        }

        let asked = packet(rng, &fabric);
        let old = common::agreed(common::RUN, &file, 96, &asked);
        let new = agreed(calls::RUN, &wide_file, ROOM, &widened_packet(&asked));
        ran.add(old.is_ok().into());
        assert_eq!(new, old.map(|words| widened_answer(&words)));
    });
    judged.at_least(1000);
    listed.at_least(500);
    ran.at_least(1000);
}
