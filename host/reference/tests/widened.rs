//! Version 1's fabrics in version 2, with words more that don't matter: each answer
//! is the same, with words more that are 0.

mod common;

use common::{answer, Call, Seen};
use reference::brute::finds;
use reference::calls::Answer;
use reference::file::{read_as, write};
use reference::random::{any, benchmarks, cases, list_query, packet, query, Rng};
use reference::wide::{self, widened, widened_answer, widened_list, widened_packet, widened_query};
use reference::{list, run, verdict, Bits, Fabric, Query, Refusal, Wide};

/// What a list's words take in version 2.
fn wide_bytes(listed: &Answer) -> usize {
    let listed = listed.as_ref().map_or(&[][..], |words| words);
    4 * widened_list(listed).unwrap().len()
}

/// A fabric's file in both versions; none if it has too many entries for the second.
fn files(fabric: &Fabric) -> Option<[Vec<u8>; 2]> {
    let wide = write(&widened(fabric));
    if fabric.entries.len() > Wide::MOST_ENTRIES {
        let Refusal { number, .. } = read_as::<Wide>(&wide).unwrap_err();
        assert_eq!(number, if wide.len() > Wide::MOST_BYTES { 1 } else { 7 });
        return None;
    }
    Some([write(fabric), wide])
}

/// The call of both versions, with room or none in both.
fn check(
    files: &[Vec<u8>; 2],
    (call, wide_call): (Call, Call<[u32; 8]>),
    (query, wide_query): (&Query, &wide::Query),
    lacking: usize,
) -> Answer {
    let narrow = answer(call, &files[0], 96 - lacking, query);
    let wide = answer(wide_call, &files[1], 112 - lacking, wide_query);
    let expected = narrow.as_ref().map(|words| widened_answer(words));
    assert_eq!(wide, expected.map_err(|refusal| *refusal));
    narrow
}

#[test]
fn verdicts() {
    let [isolated, reached, refused]: [Seen; 3] = Default::default();
    cases(2_300_000, 3000, |rng| {
        let fabric = any(rng);
        let Some(files) = files(&fabric) else {
            return;
        };
        for _ in 0..3 {
            let asked = query(rng, &fabric, 5000);
            let queries = (&asked, &widened_query(&asked));
            let lacking = usize::from(rng.once_in(10));
            let judged = check(&files, (verdict, wide::verdict), queries, lacking);
            isolated.count(judged.as_ref().is_ok_and(|words| words[0] == 0));
            reached.count(judged.as_ref().is_ok_and(|words| words[0] == 1));
            refused.count(judged.is_err());
        }
    });
    for seen in [isolated, reached, refused] {
        seen.at_least(500);
    }
}

/// With room for all words in both, and with a byte less.
#[test]
fn lists() {
    let [found, lost]: [Seen; 2] = Default::default();
    cases(2_310_000, 3000, |rng| {
        let fabric = any(rng);
        let Some([file, wide_file]) = files(&fabric) else {
            return;
        };
        let asked = list_query(rng, &fabric, 5000);
        let wide_asked = widened_query(&asked);
        let listed = answer(list, &file, 1 << 21, &asked);
        let needed = wide_bytes(&listed);
        let wide = answer(wide::list, &wide_file, needed, &wide_asked);
        let expected = listed.as_ref().map(|words| widened_list(words).unwrap());
        assert_eq!(wide, expected.map_err(|refusal| *refusal));
        if needed > 0 {
            let short = answer(wide::list, &wide_file, needed - 1, &wide_asked);
            assert_eq!(short, Err((12, 0)));
        }
        found.count(needed > 0);
        lost.count(needed > 0 && asked.is_of_the_lost());
    });
    found.at_least(500);
    lost.at_least(100);
}

#[test]
fn runs() {
    let [by_fate, refused]: [[Seen; 5]; 2] = Default::default();
    cases(2_320_000, 1500, |rng: &mut Rng| {
        let fabric = any(rng);
        let Some(files) = files(&fabric) else {
            return;
        };
        for _ in 0..10 {
            let asked = packet(rng, &fabric);
            let queries = (&asked, &widened_packet(&asked));
            let lacking = usize::from(rng.once_in(10));
            let ran = check(&files, (run, wide::run), queries, lacking);
            match ran {
                Ok(words) => by_fate[words[0] as usize].count(true),
                Err((number, _)) => refused[number as usize - 8].count(true),
            }
        }
    });
    for seen in by_fate {
        seen.at_least(300);
    }
    // 9 to 12.
    for seen in &refused[1..] {
        seen.at_least(100);
    }
}

/// The benchmark fabrics that aren't too large, at their counts and one below.
#[test]
fn the_benchmarks() {
    let mut compared = 0;
    for benchmark in benchmarks() {
        let Some(files) = files(&benchmark.fabric) else {
            continue;
        };
        let judged = |budget| {
            let asked = Query {
                budget,
                ..benchmark.query
            };
            let queries = (&asked, &widened_query(&asked));
            check(&files, (verdict, wide::verdict), queries, 0)
        };
        let units = judged(u32::MAX).unwrap()[1];
        assert!(judged(units).is_ok());
        assert_eq!(judged(units - 1), Err((13, 0)));
        compared += 1;
    }
    assert_eq!(compared, 3);
}

/// What words more are in an answer.
#[test]
fn words_more() {
    let run: Vec<u32> = (1..=24).collect();
    let wide: Vec<u32> = (1..=8).chain([0; 4]).chain(9..=24).collect();
    assert_eq!(widened_answer(&run), wide);
    let listed = [0x60001005, 0x70000003, 15, 0, 0, 255, 7, 0, 0, 170];
    let wide = [
        0x60001005, 0x70000003, 15, 0, 0, 255, 0, 0, 0, 0, 7, 0, 0, 170, 0, 0, 0, 0,
    ];
    assert_eq!(widened_list(&listed), Some(wide.to_vec()));
    assert_eq!(finds(&wide), None);
}
